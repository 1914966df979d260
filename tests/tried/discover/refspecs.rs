//! Compares what `is_fetch` and `is_push` take with what git takes.

use gix_discover::{is_fetch, is_push};
use std::test::Fail;

// A row has a refspec behind `+`, or behind `-` if git 2.39.5 fails with it as the setting of a
// remote whose tracking branch is asked for.

static FETCH: &str = "\
+\n\
++\n\
+:\n\
++:\n\
-+^x\n\
+x\n\
+x:y\n\
-x:y:z\n\
+x:\n\
+:y\n\
++x\n\
+++x\n\
++refs/heads/*:refs/remotes/origin/*\n\
+refs/heads/main:refs/remotes/origin/main\n\
-refs/heads/*\n\
+main\n\
+HEAD\n\
+refs/pull/*/head:refs/remotes/origin/pr/*\n\
-*\n\
+*:*\n\
-*:x\n\
-x:*\n\
+a*b:c*d\n\
-**:*\n\
-*/*:*\n\
-a*:*b*\n\
+@\n\
-@:@\n\
+@:x\n\
-x:@\n\
-a..b\n\
-a..b:c\n\
-x:a..b\n\
-.a\n\
-a/.b\n\
-a.lock\n\
-a.lock/b\n\
-a.\n\
-a/\n\
-/a\n\
-a//b\n\
-a b:c\n\
-a~1:c\n\
-c:a~1\n\
-a@{b\n\
-a@{1}:b\n\
-a^:b\n\
-x?y\n\
-x[y\n\
-x\\\\y\n\
+0123456789012345678901234567890123456789:x\n\
+0123456789012345678901234567890123456789\n\
-x::y\n\
-::\n\
-a:b*\n\
+a.b\n\
-a.b.:c\n\
+-x\n\
+refs/tags/*:refs/tags/*\n\
+ä\n\
";

static PUSH: &str = "\
-\n\
-+\n\
+:\n\
++:\n\
-+^x\n\
+x\n\
+x:y\n\
+x:y:z\n\
-x:\n\
+:y\n\
++x\n\
+++x\n\
++refs/heads/*:refs/remotes/origin/*\n\
+refs/heads/main:refs/remotes/origin/main\n\
+refs/heads/*\n\
+main\n\
+HEAD\n\
+refs/pull/*/head:refs/remotes/origin/pr/*\n\
+*\n\
+*:*\n\
-*:x\n\
-x:*\n\
+a*b:c*d\n\
-**:*\n\
-*/*:*\n\
-a*:*b*\n\
+@\n\
-@:@\n\
+@:x\n\
-x:@\n\
-a..b\n\
+a..b:c\n\
-x:a..b\n\
-.a\n\
-a/.b\n\
-a.lock\n\
-a.lock/b\n\
-a.\n\
-a/\n\
-/a\n\
-a//b\n\
+a b:c\n\
+a~1:c\n\
-c:a~1\n\
-a@{b\n\
+a@{1}:b\n\
+a^:b\n\
-x?y\n\
-x[y\n\
-x\\\\y\n\
+0123456789012345678901234567890123456789:x\n\
+0123456789012345678901234567890123456789\n\
+x::y\n\
-::\n\
-a:b*\n\
+a.b\n\
+a.b.:c\n\
+-x\n\
+refs/tags/*:refs/tags/*\n\
+ä\n\
";

#[test]
fn takes_what_git_fetches(rt: HostRuntime) -> Result<(), Fail> {
    for row in FETCH.lines() {
        assert_eq!(rt; is_fetch(row.get(1..).unwrap_or("").as_bytes()), row.starts_with("+"));
    }
    Ok(())
}

#[test]
fn takes_what_git_pushes(rt: HostRuntime) -> Result<(), Fail> {
    for row in PUSH.lines() {
        assert_eq!(rt; is_push(row.get(1..).unwrap_or("").as_bytes()), row.starts_with("+"));
    }
    Ok(())
}
