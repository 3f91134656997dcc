//! Runs a checker on an input.

use std::env;
use std::fs::{self, File, OpenOptions};
use std::io::{self, ErrorKind, Read, Seek, Write};
use std::os::raw::{c_int, c_ulong};
use std::os::unix::io::AsRawFd;
use std::os::unix::process::CommandExt;
use std::process::{self, Child, ChildStdin, Command, ExitStatus, Stdio};
use std::sync::atomic::{AtomicBool, Ordering};
use std::thread;
use std::time::{Duration, Instant};

/// A checker that has not ended after this time is killed, and nothing more is tried.
const LIMIT: Duration = Duration::from_secs(60);

/// How an input comes to the checker's standard input.
#[derive(Clone, Copy, Debug, PartialEq, Eq)]
pub enum Feed {
    /// As a file.
    File,
    /// Through a pipe, in pieces of so many bytes, as fast as it takes them.
    Pipe(usize),
    /// The same, each piece when the last one has been read: no read gives more than so many bytes.
    OneByOne(usize),
    /// Not at all: standard input is a folder.
    Folder,
    /// Not at all: standard input is closed.
    Closed,
}

/// Where the checker's standard output goes.
#[derive(Clone, Copy, Debug, PartialEq, Eq)]
pub enum Output {
    /// To a reader that reads all.
    Read,
    /// To a reader that leaves after so many bytes.
    Left(usize),
    /// The same for a checker that was started with SIGPIPE ignored.
    LeftIgnored(usize),
    /// To a full disk.
    Full,
    /// Nowhere: standard output is closed.
    Closed,
}

impl Output {
    /// How many bytes are read of it.
    fn read(self) -> usize {
        match self {
            Self::Read => usize::MAX,
            Self::Left(count) | Self::LeftIgnored(count) => count,
            Self::Full | Self::Closed => 0,
        }
    }
}

/// What a checker left behind.
pub struct Ran {
    /// What was read of its standard output.
    pub printed: Vec<u8>,
    /// All of its standard error.
    pub said: Vec<u8>,
    pub status: ExitStatus,
}

/// The command that runs a checker: words before it, such as an emulator's, and then its own.
pub struct Checker {
    command: String,
    words: Vec<String>,
}

impl Checker {
    pub fn new(command: String, words: Vec<String>) -> Self {
        Self { command, words }
    }

    /// Runs the checker to its end, or to the limit.
    pub fn run(&self, input: &[u8], feed: Feed, output: Output) -> io::Result<Ran> {
        let mut child = self.spawn(input, feed, output)?;
        let (fed, out, err) = (child.stdin.take(), child.stdout.take(), child.stderr.take());
        let ended = &AtomicBool::new(false);
        thread::scope(|scope| {
            let feeder = scope.spawn(move || write(fed, input, feed, ended));
            let printed = scope.spawn(move || read(out, output.read()));
            let said = scope.spawn(move || read(err, usize::MAX));
            let status = wait(&mut child);
            ended.store(true, Ordering::Relaxed);
            feeder.join().expect("no panic")?;
            Ok(Ran {
                printed: printed.join().expect("no panic")?,
                said: said.join().expect("no panic")?,
                status: status?,
            })
        })
    }

    fn spawn(&self, input: &[u8], feed: Feed, output: Output) -> io::Result<Child> {
        let mut command = Command::new(&self.command);
        command.args(&self.words).stderr(Stdio::piped());
        command.stdin(match feed {
            Feed::File => file(input)?.into(),
            Feed::Pipe(_) | Feed::OneByOne(_) => Stdio::piped(),
            Feed::Folder => File::open("/")?.into(),
            Feed::Closed => Stdio::null(),
        });
        command.stdout(match output {
            Output::Read | Output::Left(_) | Output::LeftIgnored(_) => Stdio::piped(),
            Output::Full => OpenOptions::new().write(true).open("/dev/full")?.into(),
            Output::Closed => Stdio::null(),
        });
        // SAFETY: between fork and exec, system calls alone are made.
        unsafe { command.pre_exec(move || prepare(feed, output)) };
        command.spawn()
    }
}

/// What is done in the checker's process before the checker is.
fn prepare(feed: Feed, output: Output) -> io::Result<()> {
    extern "C" {
        fn close(file: c_int) -> c_int;
        fn signal(number: c_int, handler: usize) -> usize;
    }
    /// `SIGPIPE`, `SIG_IGN` and `SIG_ERR` of Linux.
    const PIPE: c_int = 13;
    const IGNORED: usize = 1;
    const FAILED: usize = usize::MAX;
    // SAFETY: the files are not used any more, and no handler is set.
    let done = unsafe {
        (feed != Feed::Closed || close(0) == 0)
            && (output != Output::Closed || close(1) == 0)
            && (!matches!(output, Output::LeftIgnored(_)) || signal(PIPE, IGNORED) != FAILED)
    };
    if done {
        Ok(())
    } else {
        Err(io::Error::last_os_error())
    }
}

/// Waits until the process has ended. At the limit it is killed, and that is an error.
fn wait(child: &mut Child) -> io::Result<ExitStatus> {
    let start = Instant::now();
    while start.elapsed() < LIMIT {
        if let Some(status) = child.try_wait()? {
            return Ok(status);
        }
        thread::sleep(Duration::from_millis(1));
    }
    child.kill()?;
    child.wait()?;
    let late = format!("killed after {LIMIT:?}");
    Err(io::Error::new(ErrorKind::TimedOut, late))
}

/// Reads up to so many bytes of a pipe, and closes it.
fn read(pipe: Option<impl Read>, most: usize) -> io::Result<Vec<u8>> {
    let mut bytes = Vec::new();
    if let Some(pipe) = pipe {
        pipe.take(most as u64).read_to_end(&mut bytes)?;
    }
    Ok(bytes)
}

/// Writes the input in its pieces, and closes the pipe. A checker may end before it has read all, as it
/// does after a bad key line.
fn write(pipe: Option<ChildStdin>, input: &[u8], feed: Feed, ended: &AtomicBool) -> io::Result<()> {
    let (mut pipe, length, wait) = match (pipe, feed) {
        (Some(pipe), Feed::Pipe(length)) => (pipe, length, false),
        (Some(pipe), Feed::OneByOne(length)) => (pipe, length, true),
        _ => return Ok(()),
    };
    for piece in input.chunks(length) {
        match pipe.write_all(piece) {
            Err(error) if error.kind() == ErrorKind::BrokenPipe => break,
            written => written?,
        }
        while wait && unread(&pipe)? > 0 && !ended.load(Ordering::Relaxed) {
            thread::yield_now();
        }
    }
    Ok(())
}

/// How many bytes of a pipe have not been read yet.
fn unread(pipe: &ChildStdin) -> io::Result<c_int> {
    extern "C" {
        fn ioctl(file: c_int, request: c_ulong, ...) -> c_int;
    }
    /// `FIONREAD` of Linux.
    const UNREAD: c_ulong = 0x541B;
    let mut count: c_int = 0;
    // SAFETY: the request writes one number, there.
    if unsafe { ioctl(pipe.as_raw_fd(), UNREAD, &mut count) } != 0 {
        return Err(io::Error::last_os_error());
    }
    Ok(count)
}

/// A file of these bytes, open for reading, that is gone when it is closed.
fn file(bytes: &[u8]) -> io::Result<File> {
    let path = env::temp_dir().join(format!("kkurimyeot-checker-{}", process::id()));
    let mut file = OpenOptions::new()
        .read(true)
        .write(true)
        .create_new(true)
        .open(&path)?;
    fs::remove_file(&path)?;
    file.write_all(bytes)?;
    file.rewind()?;
    Ok(file)
}
