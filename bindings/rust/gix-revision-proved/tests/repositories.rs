//! Each question once about a repository that git makes. Nothing is asked without git, and if no
//! program `git-proved` is found. One that is found, or that `GIT_PROVED` names, has to run.

use gix_revision_proved::{AskError, DescribeOptions, Id, ListOptions, Reference, Repository};
use std::collections::BTreeMap;
use std::env;
use std::error::Error;
use std::fs;
use std::io::ErrorKind;
use std::path::{Path, PathBuf};
use std::process::{Command, Stdio};

/// The commits in the order of their dates, with their parents.
const HISTORY: [(&str, &[&str]); 5] = [
    ("root", &[]),
    ("ours", &["root"]),
    ("theirs", &["root"]),
    ("one", &["ours", "theirs"]),
    ("two", &["ours", "theirs"]),
];

/// A folder that is removed in the end.
struct Folder(PathBuf);

impl Drop for Folder {
    fn drop(&mut self) {
        let _ = fs::remove_dir_all(&self.0);
    }
}

fn git(folder: &Path, date: usize, words: &[&str]) -> Result<String, Box<dyn Error>> {
    let date = format!("@{date} +0000");
    let mut git = Command::new("git");
    git.arg("-C").arg(folder).args(words).stdin(Stdio::null());
    git.envs([
        ("GIT_CONFIG_NOSYSTEM", "1"),
        ("GIT_CONFIG_GLOBAL", "/dev/null"),
    ]);
    for who in ["AUTHOR", "COMMITTER"] {
        git.env(format!("GIT_{who}_NAME"), "a")
            .env(format!("GIT_{who}_EMAIL"), "a");
        git.env(format!("GIT_{who}_DATE"), &date);
    }
    let said = git.output()?;
    if !said.status.success() {
        return Err(String::from_utf8_lossy(&said.stderr).into());
    }
    Ok(String::from_utf8(said.stdout)?.trim().to_string())
}

/// Makes a criss-cross with a branch for each commit and a tag of the first.
fn make() -> Result<(Folder, BTreeMap<&'static str, Id>), Box<dyn Error>> {
    let folder = Folder(env::temp_dir().join(format!("gix-repository-{}", std::process::id())));
    let at = &folder.0;
    fs::create_dir(at)?;
    git(at, 0, &["init", "-q", "--initial-branch=two"])?;
    let tree = git(at, 0, &["mktree"])?;
    let mut ids = BTreeMap::new();
    for (date, (name, parents)) in HISTORY.iter().enumerate() {
        let mut words = vec!["commit-tree", &tree, "-m", name];
        let parents: Vec<String> = parents.iter().map(|it| format!("-p{}", ids[it])).collect();
        words.extend(parents.iter().map(String::as_str));
        let id: Id = git(at, date + 1, &words)?.parse()?;
        git(
            at,
            0,
            &["update-ref", &format!("refs/heads/{name}"), &id.to_string()],
        )?;
        ids.insert(*name, id);
    }
    git(at, 0, &["tag", "v1", "root"])?;
    Ok((folder, ids))
}

/// Whether git and the program are there. If `GIT_PROVED` is set, the program has to be.
fn can_run() -> bool {
    let is_named = env::var_os("GIT_PROVED").is_some_and(|it| !it.is_empty());
    let is_there = |it| match Command::new(it).arg("--version").output() {
        Err(error) => error.kind() != ErrorKind::NotFound,
        Ok(_) => true,
    };
    is_there("git") && (is_named || is_there("git-proved"))
}

#[test]
fn questions() -> Result<(), Box<dyn Error>> {
    if !can_run() {
        eprintln!("left out: git or git-proved is not on the path");
        return Ok(());
    }
    let (folder, id) = make()?;
    let mut asked = Repository::open(&folder.0)?;
    assert_eq!(asked.rev_parse("one~1^0")?, id["ours"]);
    assert_eq!(
        asked.merge_bases("one", &["two"])?,
        [id["theirs"], id["ours"]]
    );
    assert!(asked.merge_bases("one", &[""; 0])?.is_empty());
    assert_eq!(asked.octopus_bases(&["one", "two", "ours"])?, [id["ours"]]);
    assert_eq!(
        asked.independent(&["root", "one", "two"])?,
        [id["one"], id["two"]]
    );
    assert!(asked.is_ancestor("ours", "one")? && !asked.is_ancestor("one", "ours")?);
    assert_eq!(asked.ahead_behind("one", "ours")?, (2, 0));
    let tags = DescribeOptions {
        tags: true,
        abbrev: Some(0),
        ..DescribeOptions::default()
    };
    assert_eq!(asked.describe("two", &tags)?, b"v1");
    let newest_first = [id["one"], id["theirs"], id["ours"], id["root"]];
    assert!(asked.rev_list(&["one"])?.eq(newest_first));
    let last = ListOptions {
        max_count: Some(1),
        reverse: true,
        ..ListOptions::default()
    };
    assert!(asked
        .rev_list_with(&["one", "^ours"], last)?
        .eq([id["one"]]));
    assert_eq!(asked.count(&["one...two"])?, 2);
    let names = [
        b"refs/heads/one".to_vec(),
        b"refs/heads/theirs".to_vec(),
        b"refs/heads/two".to_vec(),
    ];
    assert_eq!(asked.contains("theirs")?, names);
    assert_eq!(
        asked.merged("root")?,
        [b"refs/heads/root".to_vec(), b"refs/tags/v1".to_vec()]
    );
    let of = |name: &str, id| Reference {
        name: name.into(),
        id,
    };
    assert_eq!(
        asked.references(&["refs/tags", "refs/heads/o*"])?,
        [
            of("refs/heads/one", id["one"]),
            of("refs/heads/ours", id["ours"]),
            of("refs/tags/v1", id["root"])
        ]
    );
    let no_merges = ListOptions {
        no_merges: true,
        ..ListOptions::default()
    };
    assert!(asked
        .rev_list_with(&["one", "^ours"], no_merges)?
        .eq([id["theirs"]]));
    assert!(matches!(
        asked.rev_parse("nosuch"),
        Err(AskError::NotThere(_))
    ));
    assert!(matches!(
        asked.rev_parse("one:path"),
        Err(AskError::NotSupported(_))
    ));
    assert!(matches!(asked.rev_parse("-n1"), Err(AskError::NoRevision)));
    assert!(asked.rev_parse("one").is_ok());
    Ok(())
}
