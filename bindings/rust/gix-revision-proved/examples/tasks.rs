//! Ten tasks with a repository: tasks REPOSITORY TASK [WORD..]
//!
//! ```text
//! pull BASE HEAD     the commits of a pull request, the oldest first
//! version COMMIT     a version such as 1.2.dev3+g1a2b3c4, from tags such as v1.2
//! merged TOPIC INTO  whether a branch was merged
//! branches BASE      how far each branch is ahead of BASE, and behind
//! resolve TEXT       the commit that a user has typed
//! receive            a pre-receive hook: refuses what drops commits
//! serve              merge bases, for lines of two revisions
//! picks FROM TO      the commits to cherry-pick, the oldest first
//! release COMMIT     the first release with a commit, by tags such as v1.2
//! base REF REF       the merge bases of two refs
//! ```

use gix_revision_proved::{DescribeOptions, ListOptions, Repository};
use std::error::Error;
use std::io::{self, BufRead};
use std::process::ExitCode;
use std::time::Duration;

/// Whether the answer was yes.
type Done = Result<bool, Box<dyn Error>>;

/// Prints the commits of `from..to`, the oldest first.
fn range(asked: &mut Repository, from: &str, to: &str, no_merges: bool) -> Done {
    let options = ListOptions {
        no_merges,
        reverse: true,
        ..ListOptions::default()
    };
    for commit in asked.rev_list_with(&[format!("{from}..{to}")], options)? {
        println!("{commit}");
    }
    Ok(true)
}

fn version(asked: &mut Repository, commit: &str) -> Done {
    let options = DescribeOptions {
        tags: true,
        long: true,
        matches: vec!["v*".into()],
        ..DescribeOptions::default()
    };
    let text = String::from_utf8(asked.describe(commit, &options)?)?;
    match *text[1..].rsplitn(3, '-').collect::<Vec<_>>() {
        [_, "0", name] => println!("{name}"),
        [digits, depth, name] => println!("{name}.dev{depth}+{digits}"),
        _ => return Err("not a long description".into()),
    }
    Ok(true)
}

fn merged(asked: &mut Repository, topic: &str, into: &str) -> Done {
    let is_merged = asked.is_ancestor(topic, into)?;
    println!("{}", if is_merged { "yes" } else { "no" });
    Ok(is_merged)
}

fn branches(asked: &mut Repository, base: &str) -> Done {
    for branch in asked.references(&["refs/heads"])? {
        let (ahead, behind) = asked.ahead_behind(branch.id.to_string(), base)?;
        println!("{} {ahead} {behind}", String::from_utf8_lossy(&branch.name));
    }
    Ok(true)
}

fn resolve(asked: &mut Repository, text: &str) -> Done {
    println!("{}", asked.rev_parse(format!("{text}^{{commit}}"))?);
    Ok(true)
}

fn receive(asked: &mut Repository) -> Done {
    for line in io::stdin().lock().lines() {
        let line = line?;
        let words: Vec<&str> = line.splitn(3, ' ').collect();
        let &[before, after, name] = words.as_slice() else {
            return Err("not a line of a hook".into());
        };
        // A new ref, or one that is deleted.
        let is_none = |id: &str| id.bytes().all(|it| it == b'0');
        if !is_none(before) && !is_none(after) && !asked.is_ancestor(before, after)? {
            println!("{name} would drop commits");
            return Ok(false);
        }
    }
    Ok(true)
}

fn serve(asked: &mut Repository) -> Done {
    asked.set_timeout(Some(Duration::from_secs(10)));
    for line in io::stdin().lock().lines() {
        let line = line?;
        let (one, other) = line.split_once(' ').unwrap_or((&line, ""));
        match asked.merge_bases(one, &[other]) {
            Err(_) => println!("error"),
            Ok(bases) => match bases.first() {
                Some(commit) => println!("{commit}"),
                None => println!("none"),
            },
        }
    }
    Ok(true)
}

fn release(asked: &mut Repository, commit: &str) -> Done {
    let numbers = |name: &str| -> Vec<u64> {
        let parts = name.split(|it: char| !it.is_ascii_digit());
        parts.filter_map(|it| it.parse().ok()).collect()
    };
    let names = asked.contains(commit)?;
    let tags = names.iter().filter_map(|it| it.strip_prefix(b"refs/tags/"));
    let versions = tags.filter_map(|it| {
        std::str::from_utf8(it)
            .ok()
            .filter(|it| it.starts_with('v'))
    });
    let first = versions.min_by_key(|it| numbers(it));
    println!("{}", first.unwrap_or("none"));
    Ok(true)
}

fn base(asked: &mut Repository, one: &str, other: &str) -> Done {
    let bases = asked.merge_bases(one, &[other])?;
    for commit in &bases {
        println!("{commit}");
    }
    Ok(!bases.is_empty())
}

fn run(words: &[&str]) -> Done {
    let [folder, task @ ..] = words else {
        return Err("usage: tasks REPOSITORY TASK [WORD..]".into());
    };
    let asked = &mut Repository::open(folder)?;
    match *task {
        ["pull", base, head] => range(asked, base, head, false),
        ["version", commit] => version(asked, commit),
        ["merged", topic, into] => merged(asked, topic, into),
        ["branches", base] => branches(asked, base),
        ["resolve", text] => resolve(asked, text),
        ["receive"] => receive(asked),
        ["serve"] => serve(asked),
        ["picks", from, to] => range(asked, from, to, true),
        ["release", commit] => release(asked, commit),
        ["base", one, other] => base(asked, one, other),
        _ => Err("usage: tasks REPOSITORY TASK [WORD..]".into()),
    }
}

fn main() -> ExitCode {
    let words: Vec<String> = std::env::args().skip(1).collect();
    match run(&words.iter().map(String::as_str).collect::<Vec<_>>()) {
        Ok(is_yes) => ExitCode::from(u8::from(!is_yes)),
        Err(error) => {
            eprintln!("tasks: {error}");
            ExitCode::from(2)
        }
    }
}
