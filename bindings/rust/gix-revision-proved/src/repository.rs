//! Repositories on disk, asked through the program `git-proved`.

use crate::Id;
use std::env;
use std::ffi::{OsStr, OsString};
use std::fmt;
use std::io::{self, ErrorKind, Read, Write};
use std::os::fd::OwnedFd;
use std::os::unix::net::UnixStream;
use std::path::{Path, PathBuf};
use std::process::{self, Child, Command, ExitStatus, Stdio};
use std::thread;
use std::time::{Duration, Instant};

/// How long a read or a write waits before it lets others have a turn.
const TURN: Duration = Duration::from_millis(20);

/// How many bytes are read at a time.
const PART: usize = 1 << 16;

/// How many bytes the first line of an answer has at most.
const HEAD: usize = 64;

/// Where commits are read from.
#[derive(Clone, Copy, Debug, Default, PartialEq, Eq, Hash)]
#[non_exhaustive]
pub enum Authentic {
    /// From objects and commit-graph files.
    #[default]
    No,
    /// Only from objects whose SHA-1 is their id.
    Yes,
    /// As with `Yes`. Each question also first reads all commits that those of the question reach.
    Whole,
}

impl Authentic {
    /// Returns the option of git-proved.
    fn option(self) -> Option<&'static str> {
        match self {
            Authentic::No => None,
            Authentic::Yes => Some("--authentic"),
            Authentic::Whole => Some("--authentic=whole"),
        }
    }
}

/// Why a question about a repository has no answer.
#[derive(Debug)]
#[non_exhaustive]
pub enum AskError {
    /// git would end with status 128 and this message, for example because a revision names nothing.
    NotThere(String),
    /// The program does not support the question, which git may answer; with its message.
    NotSupported(String),
    /// Something is damaged or has changed, or the program failed; with its message. Do not simply
    /// ask git then: it may answer from what is damaged.
    Damaged(String),
    /// The text cannot be a revision: it is empty, begins with a dash, or has a line feed or a zero
    /// byte.
    NoRevision,
    /// The program answered what this crate does not know.
    Unknown,
    /// There was no answer in the time that [`Repository::set_timeout`] has set.
    TimedOut,
    /// This process is a fork of the one that has opened the repository, and cannot use it.
    Forked,
    /// The program was not started, or could not be read or written.
    Io(io::Error),
}

impl AskError {
    /// Returns the error that a status of git-proved means; `None` if a signal has ended it.
    fn of_status(status: Option<i32>, message: String) -> AskError {
        match status {
            Some(128) => AskError::NotThere(message),
            Some(129) => AskError::NotSupported(message),
            _ => AskError::Damaged(message),
        }
    }
}

impl fmt::Display for AskError {
    fn fmt(&self, f: &mut fmt::Formatter<'_>) -> fmt::Result {
        match self {
            AskError::NotThere(message)
            | AskError::NotSupported(message)
            | AskError::Damaged(message) => f.write_str(message),
            AskError::NoRevision => f.write_str("the text cannot be a revision"),
            AskError::Unknown => f.write_str("git-proved gave an unknown answer"),
            AskError::TimedOut => f.write_str("git-proved gave no answer in time"),
            AskError::Forked => f.write_str("a repository cannot be used after a fork"),
            AskError::Io(error) => write!(f, "git-proved: {error}"),
        }
    }
}

impl std::error::Error for AskError {
    fn source(&self) -> Option<&(dyn std::error::Error + 'static)> {
        match self {
            AskError::Io(error) => Some(error),
            _ => None,
        }
    }
}

impl From<io::Error> for AskError {
    fn from(error: io::Error) -> AskError {
        AskError::Io(error)
    }
}

/// Options of [`Repository::describe`] (git-describe, "Options").
#[derive(Clone, Debug, Default, PartialEq, Eq, Hash)]
pub struct DescribeOptions {
    /// Use all references, not only annotated tags.
    pub all: bool,
    /// Use lightweight tags, too.
    pub tags: bool,
    /// Print depth and digits also if the commit itself has a name.
    pub long: bool,
    /// Print the digits alone if no name is found.
    pub always: bool,
    /// Follow only first parents.
    pub first_parent: bool,
    /// How many digits of the id are printed at least.
    pub abbrev: Option<u32>,
    /// How many names are considered.
    pub candidates: Option<u32>,
    /// Patterns of which a name has to match one.
    pub matches: Vec<String>,
    /// Patterns of which a name must match none.
    pub excludes: Vec<String>,
}

/// Options of [`Repository::rev_list_with`] (git-rev-list, "Commit Limiting").
#[derive(Clone, Copy, Debug, Default, PartialEq, Eq, Hash)]
pub struct ListOptions {
    /// How many commits are listed at most.
    pub max_count: Option<u64>,
    /// How many commits are left out first.
    pub skip: u64,
    /// Follow only first parents.
    pub first_parent: bool,
    /// List no merge commits.
    pub no_merges: bool,
    /// List the oldest first.
    pub reverse: bool,
}

/// A reference, and the id of the object that it names.
#[derive(Clone, Debug, PartialEq, Eq, Hash)]
pub struct Reference {
    /// The full name, such as `refs/heads/main`.
    pub name: Vec<u8>,
    /// The id of a commit, or of another object such as an annotated tag.
    pub id: Id,
}

/// A repository on disk.
///
/// It starts `git-proved batch` and asks it one question after another, which share what was read.
/// Each answer is that of a proved call over the commits that were read. Dropping it ends the
/// program.
///
/// If a question ends without an answer, its program is ended as well. The next question starts
/// another program in the same folder and environment. So no answer belongs to an earlier question.
///
/// After a fork, only the process that has opened the repository can use it. Dropping it elsewhere
/// leaves the program alone.
///
/// A revision is what git reads as one (gitrevisions). Names of references are bytes.
///
/// # Errors
///
/// Every question can fail with each [`AskError`].
///
/// ```no_run
/// use gix_revision_proved::Repository;
///
/// let mut repository = Repository::open("/path/to/repository")?;
/// let bases = repository.merge_bases("main", &["topic"])?;
/// assert!(repository.is_ancestor("main~3", "main")?);
/// # Ok::<(), gix_revision_proved::AskError>(())
/// ```
#[derive(Debug)]
pub struct Repository {
    start: Start,
    /// None after a question that has no answer.
    running: Option<Running>,
    timeout: Option<Duration>,
    owner: u32,
}

/// How the program is started, at first and after a question that has no answer.
struct Start {
    program: OsString,
    words: Vec<OsString>,
    /// What is relative keeps its meaning if the program is started later.
    folder: Option<PathBuf>,
    environment: Vec<(OsString, OsString)>,
}

impl fmt::Debug for Start {
    /// Leaves out the environment, which may have secrets.
    fn fmt(&self, f: &mut fmt::Formatter<'_>) -> fmt::Result {
        f.debug_struct("Start")
            .field("program", &self.program)
            .field("words", &self.words)
            .field("folder", &self.folder)
            .finish_non_exhaustive()
    }
}

/// A program that was started. Dropping it ends the program.
///
/// The three streams are sockets, since std has no time limits for pipes.
#[derive(Debug)]
struct Running {
    child: Child,
    input: UnixStream,
    output: UnixStream,
    errors: UnixStream,
    /// What was read from standard error since the last answer.
    said: Vec<u8>,
    owner: u32,
}

/// An answer, as the program gives it.
struct Said {
    status: u32,
    output: Vec<u8>,
    message: String,
}

/// An answer with status 0 or 1.
struct Answer {
    is_yes: bool,
    output: Vec<u8>,
}

/// Returns the error for a program that was not started, with its path.
fn not_started(program: &OsStr, error: &io::Error) -> AskError {
    let path = Path::new(program).display();
    io::Error::new(error.kind(), format!("{path}: {error}")).into()
}

/// Returns the program: `GIT_PROVED`, or that beside the running program, or that on the path.
fn program() -> PathBuf {
    let named = env::var_os("GIT_PROVED").filter(|it| !it.is_empty());
    if let Some(named) = named {
        return named.into();
    }
    let beside = env::current_exe()
        .ok()
        .map(|it| it.with_file_name("git-proved"));
    match beside {
        Some(path) if path.is_file() => path,
        _ => "git-proved".into(),
    }
}

/// Returns the two numbers of the first line of an answer, and the place behind it. None: a part of
/// the line is missing.
fn head(bytes: &[u8]) -> Result<Option<(u32, usize, usize)>, AskError> {
    let start = &bytes[..bytes.len().min(HEAD)];
    let Some(end) = start.iter().position(|it| *it == b'\n') else {
        return if start.len() < HEAD {
            Ok(None)
        } else {
            Err(AskError::Unknown)
        };
    };
    let line = std::str::from_utf8(&start[..end]).map_err(|_| AskError::Unknown)?;
    let (status, size) = line.split_once(' ').ok_or(AskError::Unknown)?;
    match (status.parse(), size.parse()) {
        (Ok(status), Ok(size)) => Ok(Some((status, size, end + 1))),
        _ => Err(AskError::Unknown),
    }
}

/// Whether a time has come.
fn has_come(until: Option<Instant>) -> bool {
    until.is_some_and(|it| it <= Instant::now())
}

impl Start {
    /// Starts the program.
    fn run(&self) -> Result<Running, AskError> {
        let mut command = Command::new(&self.program);
        command
            .args(&self.words)
            .env_clear()
            .envs(self.environment.iter().map(|(name, value)| (name, value)));
        if let Some(folder) = &self.folder {
            command.current_dir(folder);
        }
        let ((input, its_input), (output, its_output), (errors, its_errors)) = (
            UnixStream::pair()?,
            UnixStream::pair()?,
            UnixStream::pair()?,
        );
        input.set_write_timeout(Some(TURN))?;
        output.set_read_timeout(Some(TURN))?;
        errors.set_nonblocking(true)?;
        let child = command
            .stdin(Stdio::from(OwnedFd::from(its_input)))
            .stdout(Stdio::from(OwnedFd::from(its_output)))
            .stderr(Stdio::from(OwnedFd::from(its_errors)))
            .spawn()
            .map_err(|error| not_started(&self.program, &error))?;
        // `command` has the program's ends of the sockets. They are closed here with it, so that
        // the end of the program ends its output.
        Ok(Running {
            child,
            input,
            output,
            errors,
            said: Vec::new(),
            owner: process::id(),
        })
    }
}

impl Running {
    /// Reads what the program has said on standard error by now.
    fn hear(&mut self) -> io::Result<()> {
        let mut part = [0; PART];
        loop {
            match self.errors.read(&mut part) {
                Ok(0) => return Ok(()),
                Ok(count) => self.said.extend(&part[..count]),
                Err(error) if error.kind() == ErrorKind::Interrupted => {}
                Err(error) if error.kind() == ErrorKind::WouldBlock => return Ok(()),
                Err(error) => return Err(error),
            }
        }
    }

    /// Repeats a read or a write until it is done. In between it reads standard error, which the
    /// program may be waiting for.
    fn wait<T>(
        &mut self,
        until: Option<Instant>,
        mut step: impl FnMut(&mut Running) -> io::Result<T>,
    ) -> Result<T, AskError> {
        loop {
            match step(self) {
                Ok(done) => return Ok(done),
                Err(error) if error.kind() == ErrorKind::Interrupted => {}
                Err(error) if error.kind() == ErrorKind::WouldBlock => self.hear()?,
                Err(error) => return Err(error.into()),
            }
            if has_come(until) {
                return Err(AskError::TimedOut);
            }
        }
    }

    /// Writes a question. If the program has ended, the end of its output says so.
    fn write(&mut self, mut line: &[u8], until: Option<Instant>) -> Result<(), AskError> {
        while !line.is_empty() {
            match self.wait(until, |it| it.input.write(line)) {
                Ok(count) => line = &line[count..],
                Err(AskError::Io(error)) if error.kind() == ErrorKind::BrokenPipe => break,
                Err(error) => return Err(error),
            }
        }
        Ok(())
    }

    /// Returns the status of a program whose output has ended.
    fn ended(&mut self, until: Option<Instant>) -> Result<ExitStatus, AskError> {
        loop {
            if let Some(status) = self.child.try_wait()? {
                return Ok(status);
            }
            if has_come(until) {
                return Err(AskError::TimedOut);
            }
            thread::sleep(TURN / 20);
        }
    }

    /// Returns what the program has said on standard error since the last answer.
    fn message(&mut self) -> Result<String, AskError> {
        self.hear()?;
        let message = String::from_utf8_lossy(&self.said).trim_end().to_string();
        self.said.clear();
        Ok(message)
    }

    /// Asks a question. After an error the answer, or a part of it, may still come. So the program
    /// must not be asked again.
    fn ask(&mut self, line: &[u8], until: Option<Instant>) -> Result<Said, AskError> {
        self.write(line, until)?;
        let (mut bytes, mut part) = (Vec::new(), vec![0; PART]);
        loop {
            if let Some((status, size, from)) = head(&bytes)? {
                let size = size.checked_add(1).ok_or(AskError::Unknown)?;
                if bytes.len() - from > size {
                    return Err(AskError::Unknown);
                }
                if bytes.len() - from == size {
                    bytes.truncate(bytes.len() - 1);
                    bytes.drain(..from);
                    // The program writes messages before the answer. So all of them are there.
                    let message = self.message()?;
                    return Ok(Said {
                        status,
                        output: bytes,
                        message,
                    });
                }
            }
            match self.wait(until, |it| it.output.read(&mut part))? {
                0 => {
                    let status = self.ended(until)?;
                    let mut message = self.message()?;
                    if message.is_empty() {
                        message = format!("git-proved ended with {status}");
                    }
                    return Err(AskError::of_status(status.code(), message));
                }
                count => bytes.extend(&part[..count]),
            }
        }
    }
}

impl Drop for Running {
    /// Ends the program if this process has started it. A fork only closes the sockets.
    ///
    /// The program is killed, which does no harm, as it writes no file. It would wait for the end of
    /// its input as long as a fork keeps the socket open.
    fn drop(&mut self) {
        if process::id() == self.owner {
            let _ = self.child.kill();
            let _ = self.child.wait();
        }
    }
}

/// Adds a word in quotes, as it stands on a line of a batch.
fn add_word(line: &mut Vec<u8>, word: &[u8]) -> Result<(), AskError> {
    if word.contains(&b'\n') || word.contains(&0) {
        return Err(AskError::NoRevision);
    }
    if !line.is_empty() {
        line.push(b' ');
    }
    line.push(b'\'');
    for byte in word {
        match byte {
            b'\'' => line.extend(b"'\\''"),
            byte => line.push(*byte),
        }
    }
    line.push(b'\'');
    Ok(())
}

/// Returns a revision. One that begins with a dash would be an option.
fn revision<T: AsRef<[u8]> + ?Sized>(text: &T) -> Result<&[u8], AskError> {
    match text.as_ref() {
        [] | [b'-', ..] => Err(AskError::NoRevision),
        text => Ok(text),
    }
}

/// Returns the ids of an output, one on each line.
fn ids(output: &[u8]) -> Result<Vec<Id>, AskError> {
    let text = std::str::from_utf8(output).map_err(|_| AskError::Unknown)?;
    let ids = text
        .lines()
        .map(|line| line.parse().map_err(|_| AskError::Unknown));
    ids.collect()
}

/// Reads a line of an id, a blank and a name.
fn reference(line: &[u8]) -> Option<Reference> {
    let id = std::str::from_utf8(line.get(..40)?).ok()?;
    Some(Reference {
        name: line.get(41..)?.to_vec(),
        id: id.parse().ok()?,
    })
}

/// Returns the lines of an output.
fn lines(output: &[u8]) -> Vec<Vec<u8>> {
    let output = output.strip_suffix(b"\n").unwrap_or(output);
    if output.is_empty() {
        return Vec::new();
    }
    output
        .split(|byte| *byte == b'\n')
        .map(<[u8]>::to_vec)
        .collect()
}

impl Repository {
    /// Opens the repository that git would find from a folder, by the program that the environment
    /// variable `GIT_PROVED` names, or else the one beside the running program or on the path.
    ///
    /// The first question says if there is none.
    ///
    /// # Errors
    ///
    /// [`AskError::Io`]: the program was not started.
    pub fn open(path: impl AsRef<Path>) -> Result<Repository, AskError> {
        Repository::open_with(program(), path, Authentic::No)
    }

    /// Opens the repository by this program, which believes what `authentic` says.
    ///
    /// # Errors
    ///
    /// [`AskError::Io`]: the program was not started.
    pub fn open_with(
        program: impl AsRef<OsStr>,
        path: impl AsRef<Path>,
        authentic: Authentic,
    ) -> Result<Repository, AskError> {
        let mut words = vec!["-C".into(), path.as_ref().into()];
        words.extend(authentic.option().map(OsString::from));
        words.push("batch".into());
        let start = Start {
            program: program.as_ref().into(),
            words,
            folder: env::current_dir().ok(),
            environment: env::vars_os().collect(),
        };
        Ok(Repository {
            running: Some(start.run()?),
            start,
            timeout: None,
            owner: process::id(),
        })
    }

    /// Sets how long a question may take, from when the program is asked. Without a limit, as at
    /// first, it may take any time.
    ///
    /// A question that takes longer fails with [`AskError::TimedOut`], and its program is ended.
    pub fn set_timeout(&mut self, timeout: Option<Duration>) {
        self.timeout = timeout;
    }

    /// Asks a question: words, as they stand behind `git proved`.
    fn ask(&mut self, words: &[&[u8]]) -> Result<Answer, AskError> {
        let mut line = Vec::new();
        for word in words {
            add_word(&mut line, word)?;
        }
        line.push(b'\n');
        if process::id() != self.owner {
            return Err(AskError::Forked);
        }
        // The program is put back only after an answer. Otherwise it is dropped here.
        let mut running = match self.running.take() {
            Some(running) => running,
            None => self.start.run()?,
        };
        let until = self.timeout.and_then(|it| Instant::now().checked_add(it));
        let said = running.ask(&line, until)?;
        self.running = Some(running);
        match said.status {
            0 | 1 => Ok(Answer {
                is_yes: said.status == 0,
                output: said.output,
            }),
            status => Err(AskError::of_status(i32::try_from(status).ok(), said.message)),
        }
    }

    /// Asks a question that ends with revisions.
    fn ask_about<T: AsRef<[u8]>>(
        &mut self,
        words: &[&str],
        revisions: &[T],
        last: Option<&str>,
    ) -> Result<Answer, AskError> {
        let mut all: Vec<&[u8]> = words.iter().map(|it| it.as_bytes()).collect();
        for it in revisions {
            all.push(revision(it)?);
        }
        all.extend(last.map(str::as_bytes));
        self.ask(&all)
    }

    /// Returns the id of the object that a revision names, like `git rev-parse --verify`.
    pub fn rev_parse(&mut self, text: impl AsRef<[u8]>) -> Result<Id, AskError> {
        let answer = self.ask_about(&["rev-parse", "--verify"], &[text], None)?;
        ids(&answer.output)?
            .first()
            .copied()
            .ok_or(AskError::Unknown)
    }

    /// Returns the merge bases of `first` and a merge of the others, like `git merge-base --all`,
    /// the newest first. The list is empty if there is none, and if there are no others.
    pub fn merge_bases<T: AsRef<[u8]>>(
        &mut self,
        first: impl AsRef<[u8]>,
        others: &[T],
    ) -> Result<Vec<Id>, AskError> {
        if others.is_empty() {
            self.rev_parse([first.as_ref(), b"^{commit}"].concat())?;
            return Ok(Vec::new());
        }
        let all: Vec<&[u8]> = [first.as_ref()]
            .into_iter()
            .chain(others.iter().map(T::as_ref))
            .collect();
        ids(&self.ask_about(&["merge-base", "--all"], &all, None)?.output)
    }

    /// Returns the best common ancestors of all, like `git merge-base --octopus --all`.
    pub fn octopus_bases<T: AsRef<[u8]>>(&mut self, revisions: &[T]) -> Result<Vec<Id>, AskError> {
        ids(&self
            .ask_about(&["merge-base", "--octopus", "--all"], revisions, None)?
            .output)
    }

    /// Returns those that no other one reaches, like `git merge-base --independent`.
    pub fn independent<T: AsRef<[u8]>>(&mut self, revisions: &[T]) -> Result<Vec<Id>, AskError> {
        ids(&self
            .ask_about(&["merge-base", "--independent"], revisions, None)?
            .output)
    }

    /// Returns whether `of` reaches `ancestor`, like `git merge-base --is-ancestor`.
    pub fn is_ancestor(
        &mut self,
        ancestor: impl AsRef<[u8]>,
        of: impl AsRef<[u8]>,
    ) -> Result<bool, AskError> {
        let both = [ancestor.as_ref(), of.as_ref()];
        Ok(self
            .ask_about(&["merge-base", "--is-ancestor"], &both, None)?
            .is_yes)
    }

    /// Returns how many commits only `ours` reaches, and how many only `theirs`.
    pub fn ahead_behind(
        &mut self,
        ours: impl AsRef<[u8]>,
        theirs: impl AsRef<[u8]>,
    ) -> Result<(u64, u64), AskError> {
        let both = [revision(&ours)?, revision(&theirs)?].join(b"...".as_slice());
        let words = ["rev-list", "--left-right", "--count"];
        let answer = self.ask_about(&words, &[both], Some("--"))?;
        let text = String::from_utf8_lossy(&answer.output);
        let mut counts = text.split_whitespace().map(str::parse);
        match (counts.next(), counts.next()) {
            (Some(Ok(ahead)), Some(Ok(behind))) => Ok((ahead, behind)),
            _ => Err(AskError::Unknown),
        }
    }

    /// Returns the description of a commit, like `git describe` with these options.
    pub fn describe(
        &mut self,
        text: impl AsRef<[u8]>,
        options: &DescribeOptions,
    ) -> Result<Vec<u8>, AskError> {
        let flags = [
            ("--all", options.all),
            ("--tags", options.tags),
            ("--long", options.long),
            ("--always", options.always),
            ("--first-parent", options.first_parent),
        ];
        let mut words = vec!["describe".to_string()];
        words.extend(flags.iter().filter(|it| it.1).map(|it| it.0.to_string()));
        words.extend(options.abbrev.map(|it| format!("--abbrev={it}")));
        words.extend(options.candidates.map(|it| format!("--candidates={it}")));
        words.extend(options.matches.iter().map(|it| format!("--match={it}")));
        words.extend(options.excludes.iter().map(|it| format!("--exclude={it}")));
        let words: Vec<&str> = words.iter().map(String::as_str).collect();
        let answer = self.ask_about(&words, &[text], None)?;
        lines(&answer.output)
            .into_iter()
            .next()
            .ok_or(AskError::Unknown)
    }

    /// Returns the commits of revisions and ranges, like `git rev-list`.
    pub fn rev_list<T: AsRef<[u8]>>(
        &mut self,
        revisions: &[T],
    ) -> Result<impl Iterator<Item = Id>, AskError> {
        self.rev_list_with(revisions, ListOptions::default())
    }

    /// Returns the commits of revisions and ranges, like `git rev-list` with these options.
    pub fn rev_list_with<T: AsRef<[u8]>>(
        &mut self,
        revisions: &[T],
        options: ListOptions,
    ) -> Result<impl Iterator<Item = Id>, AskError> {
        let mut words = vec!["rev-list".to_string(), format!("--skip={}", options.skip)];
        words.extend(options.max_count.map(|it| format!("--max-count={it}")));
        let flags = [
            ("--first-parent", options.first_parent),
            ("--no-merges", options.no_merges),
            ("--reverse", options.reverse),
        ];
        words.extend(flags.iter().filter(|it| it.1).map(|it| it.0.to_string()));
        let words: Vec<&str> = words.iter().map(String::as_str).collect();
        let answer = self.ask_about(&words, revisions, Some("--"))?;
        Ok(ids(&answer.output)?.into_iter())
    }

    /// Returns the number of commits of revisions and ranges, like `git rev-list --count`.
    pub fn count<T: AsRef<[u8]>>(&mut self, revisions: &[T]) -> Result<u64, AskError> {
        let answer = self.ask_about(&["rev-list", "--count"], revisions, Some("--"))?;
        let text = String::from_utf8_lossy(&answer.output);
        text.trim_end().parse().map_err(|_| AskError::Unknown)
    }

    /// Returns the references that one of the patterns matches, or all if there is no pattern, like
    /// `git for-each-ref`.
    pub fn references(&mut self, patterns: &[&str]) -> Result<Vec<Reference>, AskError> {
        let format = "--format=%(objectname) %(refname)";
        let words = [&["for-each-ref", format, "--"], patterns].concat();
        let words: Vec<&[u8]> = words.iter().map(|it| it.as_bytes()).collect();
        let answer = self.ask(&words)?;
        lines(&answer.output)
            .iter()
            .map(|line| reference(line).ok_or(AskError::Unknown))
            .collect()
    }

    /// Returns the names of references, by an option that takes a commit.
    fn names_by(&mut self, option: &str, commit: &[u8]) -> Result<Vec<Vec<u8>>, AskError> {
        let option = [option.as_bytes(), revision(commit)?].concat();
        let answer = self.ask(&[b"for-each-ref", &option, b"--format=%(refname)"])?;
        Ok(lines(&answer.output))
    }

    /// Returns the names of the references that reach a commit, like `git for-each-ref --contains`.
    pub fn contains(&mut self, commit: impl AsRef<[u8]>) -> Result<Vec<Vec<u8>>, AskError> {
        self.names_by("--contains=", commit.as_ref())
    }

    /// Returns the names of the references that a commit reaches, like `git for-each-ref --merged`.
    pub fn merged(&mut self, commit: impl AsRef<[u8]>) -> Result<Vec<Vec<u8>>, AskError> {
        self.names_by("--merged=", commit.as_ref())
    }
}
