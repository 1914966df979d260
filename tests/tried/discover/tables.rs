//! Has texts of config files, and what git 2.39.5 reads in them.

/// The rows, each ended by `\x1e`. A row has three parts, parted by `\x1f`: the text of a config
/// file, the settings that `git config --list` prints if it reads the file, and the number of the
/// line that it refuses, or 0. As one text they are proved faster than as a table.
pub(crate) static ROWS: &[u8] = b"\
\x1f\x1f0\x1e\
[core]\n\tabbrev = 7\n\x1fcore.abbrev=7\n\x1f0\x1e\
[core]\nabbrev\x1fcore.abbrev\n\x1f0\x1e\
[core]\nabbrev\n\x1fcore.abbrev\n\x1f0\x1e\
[core\x1f\x1f2\x1e\
[core\n\x1f\x1f1\x1e\
[core]abbrev=9\x1fcore.abbrev=9\n\x1f0\x1e\
[core] abbrev=9 ; x\n[core]\n abbrev = \"a b\" c # d\n\x1fcore.abbrev=9\ncore.abbrev=a b c\n\
\x1f0\x1e\
[branch \"Main\"]\nremote = o\nREMOTE = p\n\x1fbranch.Main.remote=o\nbranch.Main.remote=p\n\
\x1f0\x1e\
[Branch.Main]\nremote=o\n\x1fbranch.main.remote=o\n\x1f0\x1e\
[a \"b\\\"c\\\\d\\e\"]\nk=v\n\x1fa.b\"c\\de.k=v\n\x1f0\x1e\
[a \"b\n\"]\nk=v\n\x1f\x1f1\x1e\
[a \"b\"\n]\nk=v\n\x1f\x1f2\x1e\
[a \"b\"x]\n\x1f\x1f1\x1e\
[a \"b\"] k=v\n\x1fa.b.k=v\n\x1f0\x1e\
[a\t \"b\"]\nk = v\\\n  w\n\x1fa.b.k=v  w\n\x1f0\x1e\
[a]\nk = \"x\ny\"\n\x1f\x1f2\x1e\
[a]\nk = \\x\n\x1f\x1f2\x1e\
[a]\nk = \\t\\n\\b\\\\\\\"\n\x1fa.k=\t\n\x08\\\"\n\x1f0\x1e\
[a]\nk=1\\\x1fa.k=1\n\x1f0\x1e\
[a]\nk=\"1\\\x1f\x1f3\x1e\
[a]\nk=\"1\x1f\x1f2\x1e\
\xef\xbb\xbf[a]\nk=1\x1fa.k=1\n\x1f0\x1e\
\xef\xbb[a]\nk=1\x1f\x1f1\x1e\
[a]\r\nk=1\r\nk2 = \"x\"\r\n\x1fa.k=1\na.k2=x\n\x1f0\x1e\
[a]\nk=1\r\x1fa.k=1\n\x1f0\x1e\
[a]\nk=a\rb\r\n\x1fa.k=a b\n\x1f0\x1e\
k=1\n\x1fk=1\n\x1f0\x1e\
[a]\n1k=2\n\x1f\x1f2\x1e\
[a]\nk_x=2\n\x1f\x1f2\x1e\
[a]\nk x=2\n\x1f\x1f2\x1e\
[a]\nk\t=2\n\x1fa.k=2\n\x1f0\x1e\
[a]\nk\r=2\n\x1f\x1f2\x1e\
[]\nk=1\n\x1f\x1f1\x1e\
[a]]\nk=1\n\x1f\x1f1\x1e\
[a.b.c]\nk=1\n\x1fa.b.c.k=1\n\x1f0\x1e\
[.]\nk=1\n\x1f..k=1\n\x1f0\x1e\
[a-b]\nK-e=1\n\x1fa-b.k-e=1\n\x1f0\x1e\
[a_b]\nk=1\n\x1f\x1f1\x1e\
[a]k\n\x1fa.k\n\x1f0\x1e\
[a]k=\n\x1fa.k=\n\x1f0\x1e\
[a]k=#\n\x1fa.k=\n\x1f0\x1e\
[a]k=\"#;\"  ;\n\x1fa.k=#;\n\x1f0\x1e\
[a]k=a#b\n\x1fa.k=a\n\x1f0\x1e\
#x\n;y\n[a];z\nk=1\x1fa.k=1\n\x1f0\x1e\
[a]k=  x  y\tz \n\x1fa.k=x  y z\n\x1f0\x1e\
[a]k= \"\" x\n\x1fa.k=x\n\x1f0\x1e\
[a]k= x\"\"\n\x1fa.k=x\n\x1f0\x1e\
[a]k= x \"\" \n\x1fa.k=x \n\x1f0\x1e\
[a \"\"]\nk=1\n\x1fa..k=1\n\x1f0\x1e\
[a \" \"]\nk=1\n\x1fa. .k=1\n\x1f0\x1e\
[a \"b\" ]\nk=1\n\x1f\x1f1\x1e\
[a  \n\"b\"]\n\x1f\x1f1\x1e\
[a \"b\x1f\x1f1\x1e\
[a \"b\"\x1f\x1f2\x1e\
[a \"b\\\x1f\x1f1\x1e\
[a \"b\\\nc\"]\nk=1\n\x1f\x1f1\x1e\
[a]\n\nk = a\n b = c\n\n\nx y\n\x1f\x1f7\x1e\
[a]\nk = v \\\n  # c\nj=1\n\x1fa.k=v \na.j=1\n\x1f0\x1e\
[a]\nk = v # c \\\nj=1\n\x1fa.k=v\na.j=1\n\x1f0\x1e\
[a]\nk=\x0b\n\x1fa.k=\x0b\n\x1f0\x1e\
\x0b[a]\nk=1\n\x1f\x1f1\x1e\
[a]\nk=\xff\xfe\n\x1fa.k=\xff\xfe\n\x1f0\x1e\
[\xc3\xa9]\n\x1f\x1f1\x1e\
[a \"\xc3\xa9\"]\nk=\xc3\xa9\n\x1fa.\xc3\xa9.k=\xc3\xa9\n\x1f0\x1e\
[a]\nk=a\\\r\nb\n\x1fa.k=ab\n\x1f0\x1e\
[a]\nk=\"a\\\r\nb\"\n\x1fa.k=ab\n\x1f0\x1e\
[a]\nk\\\n=1\n\x1f\x1f2\x1e\
[a]\n=1\n\x1f\x1f2\x1e\
=\n\x1f\x1f1\x1e\
[a]\nk=1]\n[b]k=2\n\x1fa.k=1]\nb.k=2\n\x1f0\x1e\
[a]k=1 [b]\n\x1fa.k=1 [b]\n\x1f0\x1e\
[a][b]k=1\n\x1fb.k=1\n\x1f0\x1e\
[a]# [b]\nk=1\n\x1fa.k=1\n\x1f0\x1e\
[a]\nk=a  \\\n  b\n\x1fa.k=a    b\n\x1f0\x1e\
[a]\nk=\\\n  b\n\x1fa.k=b\n\x1f0\x1e\
[a]\nk=\"\\\n  b\"\n\x1fa.k=  b\n\x1f0\x1e\
[a]\nk='x'\n\x1fa.k='x'\n\x1f0\x1e\
[a]\nk=a\x00b\n\x1fa.k=a\n\x1f0\x1e\
";
