//! How a question ends badly: no answer may belong to an earlier question. This program is also the
//! one that is asked, a stand-in for git-proved, if its first argument is `-C`.

use gix_revision_proved::{AskError, Authentic, DescribeOptions, Repository};
use std::env;
use std::error::Error;
use std::io::{self, BufRead, Write};
use std::process;
use std::thread;
use std::time::{Duration, Instant};

extern "C" {
    fn fork() -> i32;
    fn waitpid(process: i32, status: *mut i32, options: i32) -> i32;
    fn kill(process: i32, signal: i32) -> i32;
    fn _exit(status: i32) -> !;
}

/// How long a question is waited for.
const SHORT: Duration = Duration::from_millis(200);

/// How long the stand-in sleeps if it is not to answer, and how long a step may take.
const LONG: Duration = Duration::from_secs(60);

/// Answers each question by its last word, but for some words.
fn stand_in() -> io::Result<()> {
    let mut output = io::stdout();
    for line in io::stdin().lock().lines() {
        let line = line?;
        let mut status = 0;
        let mut word = line.rsplit('\'').nth(1).unwrap_or_default().to_string();
        match word.as_str() {
            "never" => thread::sleep(LONG),
            "where" => {
                let folder = env::current_dir()?;
                word = format!("{} {:?}", folder.display(), env::var_os("STAND_IN"));
            }
            "options" => word = env::args().skip(1).collect::<Vec<_>>().join(" "),
            "who" => word = process::id().to_string(),
            "loud" => {
                io::stderr().write_all(&vec![b'x'; 1_000_000])?;
                status = 128;
            }
            "dies" => {
                eprintln!("fatal: died");
                process::exit(3);
            }
            "125" => status = 125,
            "129" => status = 129,
            "wrong" => output.write_all(b"\xff\xff\n")?,
            "large" => output.write_all(b"0 18446744073709551615\n")?,
            "half" => {
                output.write_all(b"0 100\nhalf")?;
                output.flush()?;
                thread::sleep(LONG);
            }
            _ => {}
        }
        let answer = format!("{status} {}\n{word}\n\n", word.len() + 1);
        let times = if word == "twice" { 2 } else { 1 };
        output.write_all(answer.repeat(times).as_bytes())?;
        output.flush()?;
    }
    Ok(())
}

fn open() -> Result<Repository, Box<dyn Error>> {
    open_as(Authentic::No)
}

fn open_as(authentic: Authentic) -> Result<Repository, Box<dyn Error>> {
    Ok(Repository::open_with(env::current_exe()?, ".", authentic)?)
}

/// Asks the stand-in for a word.
fn ask(repository: &mut Repository, word: &str) -> Result<String, AskError> {
    let answer = repository.describe(word, &DescribeOptions::default())?;
    Ok(String::from_utf8_lossy(&answer).into_owned())
}

/// Asks the stand-in for a word, and waits only a short time. Then others may take any time again: a
/// busy machine takes long to start another stand-in.
fn ask_briefly(repository: &mut Repository, word: &str) -> Result<String, AskError> {
    repository.set_timeout(Some(SHORT));
    let answer = ask(repository, word);
    repository.set_timeout(None);
    answer
}

/// Whether a process runs. One that has ended and was not waited for would count, too.
fn is_running(process: &str) -> bool {
    process.parse().is_ok_and(|it| unsafe { kill(it, 0) } == 0)
}

/// Returns whether a function returns true in a fork, within ten seconds.
fn in_fork(check: impl FnOnce() -> bool) -> bool {
    let child = unsafe { fork() };
    if child == 0 {
        let status = i32::from(!check());
        unsafe { _exit(status) };
    }
    let (mut status, end) = (-1, Instant::now() + Duration::from_secs(10));
    const NO_HANG: i32 = 1;
    while unsafe { waitpid(child, &mut status, NO_HANG) } == 0 {
        if Instant::now() > end {
            unsafe { kill(child, 9) };
        }
        thread::sleep(Duration::from_millis(5));
    }
    status == 0
}

fn timeouts() -> Result<(), Box<dyn Error>> {
    let mut asked = open()?;
    for word in ["never", "half"] {
        let (process, before) = (ask(&mut asked, "who")?, Instant::now());
        let said = ask_briefly(&mut asked, word);
        assert!(matches!(said, Err(AskError::TimedOut)));
        assert!(before.elapsed() >= SHORT && before.elapsed() < LONG / 2);
        assert!(!is_running(&process));
        assert_eq!(ask(&mut asked, "one")?, "one");
    }
    Ok(())
}

fn failed_reads() -> Result<(), Box<dyn Error>> {
    let mut asked = open()?;
    for word in ["wrong", "twice", "large"] {
        // On a busy machine the stand-in is started before the time begins.
        ask(&mut asked, "one")?;
        assert!(
            ask_briefly(&mut asked, word).is_err(),
            "{word} has an answer"
        );
        for next in ["one", "two"] {
            assert_eq!(ask(&mut asked, next)?, next);
        }
    }
    let damaged = ask(&mut asked, "125");
    assert!(matches!(damaged, Err(AskError::Damaged(_))));
    let unsupported = ask(&mut asked, "129");
    assert!(matches!(unsupported, Err(AskError::NotSupported(_))));
    let process = ask(&mut asked, "who")?;
    let died = ask(&mut asked, "dies");
    assert!(matches!(died, Err(AskError::Damaged(message)) if message == "fatal: died"));
    assert_ne!(ask(&mut asked, "who")?, process);
    Ok(())
}

fn forks() -> Result<(), Box<dyn Error>> {
    let mut asked = open()?;
    let process = ask(&mut asked, "who")?;
    let is_refused = in_fork(|| matches!(ask(&mut asked, "child"), Err(AskError::Forked)));
    assert!(is_refused);
    // The fork drops its repository.
    let mut given = Some(asked);
    assert!(in_fork(|| given.take().is_some()));
    let mut asked = given.ok_or("it is given")?;
    assert_eq!(ask(&mut asked, "who")?, process);

    // While a fork has the streams, too, the program ends with the repository.
    let child = unsafe { fork() };
    if child == 0 {
        thread::sleep(LONG);
        unsafe { _exit(0) };
    }
    let before = Instant::now();
    drop(asked);
    let took = before.elapsed();
    unsafe { kill(child, 9) };
    unsafe { waitpid(child, &mut 0, 0) };
    assert!(took < LONG / 2 && !is_running(&process));
    Ok(())
}

fn messages_need_no_folder() -> Result<(), Box<dyn Error>> {
    env::set_var("TMPDIR", "/nosuch");
    let said = ask(&mut open()?, "loud");
    env::remove_var("TMPDIR");
    // It is also longer than what a stream holds.
    assert!(matches!(said, Err(AskError::NotThere(message)) if message == "x".repeat(1_000_000)));
    Ok(())
}

fn what_is_believed() -> Result<(), Box<dyn Error>> {
    for (authentic, options) in [
        (Authentic::No, "-C . batch"),
        (Authentic::Yes, "-C . --authentic batch"),
        (Authentic::Whole, "-C . --authentic=whole batch"),
    ] {
        assert_eq!(ask(&mut open_as(authentic)?, "options")?, options);
    }
    Ok(())
}

fn another_program_is_started_alike() -> Result<(), Box<dyn Error>> {
    let here = env::current_dir()?;
    env::set_var("STAND_IN", "before");
    let mut asked = open()?;
    let wanted = ask(&mut asked, "where")?;
    assert!(wanted.ends_with("Some(\"before\")"));
    assert!(ask_briefly(&mut asked, "never").is_err());
    env::set_var("STAND_IN", "after");
    env::set_current_dir("/")?;
    assert_eq!(ask(&mut asked, "where")?, wanted);
    Ok(env::set_current_dir(here)?)
}

fn main() -> Result<(), Box<dyn Error>> {
    if env::args().nth(1).as_deref() == Some("-C") {
        return Ok(stand_in()?);
    }
    timeouts()?;
    failed_reads()?;
    forks()?;
    messages_need_no_folder()?;
    what_is_believed()?;
    another_program_is_started_alike()
}
