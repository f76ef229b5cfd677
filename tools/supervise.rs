// Runs a program between standard input and standard output, and tells how that ended, where that end lies
// beyond what the program itself can see.
//
//     supervise PROGRAM INPUT
//
// Passes standard input on to PROGRAM, and what PROGRAM writes to standard output, unchanged. Where a read
// or a write would block it waits. INPUT is the name of standard input in messages.
//
// Exit 0: the input has ended and all that PROGRAM wrote is written. 141: the reader of standard output has
// left. 1: anything else, after one line on standard error.

use std::env;
use std::ffi::{c_int, c_short, c_ulong, OsString};
use std::fmt::Display;
use std::fs::File;
use std::io::{self, ErrorKind, Read, Write};
use std::os::fd::{AsFd, AsRawFd, OwnedFd};
use std::process::{exit, Command, Stdio};
use std::sync::mpsc;
use std::thread;

/// The bytes that are read at once: as many as a pipe holds.
const MOST: usize = 65_536;

/// What the shell gives for a process that SIGPIPE has ended.
const READER_LEFT: i32 = 141;

// ---- Waiting ----

const POLLIN: c_short = 1;
const POLLOUT: c_short = 4;

/// `struct pollfd` of poll(2).
#[repr(C)]
struct PollFd {
    fd: c_int,
    events: c_short,
    revents: c_short,
}

extern "C" {
    fn poll(fds: *mut PollFd, count: c_ulong, timeout: c_int) -> c_int;
}

/// Waits for the event, however long.
fn wait(file: &File, events: c_short) -> io::Result<()> {
    let mut entry = PollFd { fd: file.as_raw_fd(), events, revents: 0 };
    // SAFETY: the list is one entry, which is there until poll returns
    match unsafe { poll(&mut entry, 1, -1) } {
        0.. => Ok(()),
        _ => Err(io::Error::last_os_error()),
    }
}

/// A read or a write, again and again while it is interrupted or would block.
fn retry(
    file: &File,
    events: c_short,
    mut call: impl FnMut(&File) -> io::Result<usize>,
) -> io::Result<usize> {
    loop {
        let mut result = call(file);
        if matches!(&result, Err(error) if error.kind() == ErrorKind::WouldBlock) {
            result = wait(file, events).and(Err(ErrorKind::Interrupted.into()));
        }
        match result {
            Err(error) if error.kind() == ErrorKind::Interrupted => {}
            _ => return result,
        }
    }
}

// ---- Copying ----

enum Failure {
    Read(io::Error),
    Write(io::Error),
}

/// Copies one file to the other until it ends.
fn copy(from: &File, to: &File) -> Result<(), Failure> {
    let mut buffer = vec![0; MOST];
    loop {
        let count =
            retry(from, POLLIN, |mut file| file.read(&mut buffer)).map_err(Failure::Read)?;
        if count == 0 {
            return Ok(());
        }
        let mut rest = &buffer[..count];
        while !rest.is_empty() {
            match retry(to, POLLOUT, |mut file| file.write(rest)) {
                Ok(0) => return Err(Failure::Write(ErrorKind::WriteZero.into())),
                Ok(count) => rest = &rest[count..],
                Err(error) => return Err(Failure::Write(error)),
            }
        }
    }
}

// ---- The program ----

fn fail(what: impl Display) -> ! {
    // where this line cannot be written either, the exit status tells
    let _ = writeln!(io::stderr(), "celltimber: {what}");
    exit(1);
}

/// The file itself: `Stdin` and `Stdout` hide that it is not open for reading or for writing.
fn standard(file: impl AsFd) -> File {
    match file.as_fd().try_clone_to_owned() {
        Ok(own) => File::from(own),
        Err(error) => fail(format_args!("too many files are open: {error}")),
    }
}

fn main() {
    let words: Vec<OsString> = env::args_os().skip(1).collect();
    let [program, name] = &words[..] else { fail("usage: supervise PROGRAM INPUT") };
    let (name, path) = (name.to_string_lossy(), program.to_string_lossy());
    let (input, output) = (standard(io::stdin()), standard(io::stdout()));
    let child = Command::new(program).stdin(Stdio::piped()).stdout(Stdio::piped()).spawn();
    let mut child = child.unwrap_or_else(|error| {
        fail(format_args!("{path}: it cannot be run: {error}; try 'celltimber check'"))
    });
    let to_child = File::from(OwnedFd::from(child.stdin.take().expect("a pipe")));
    let from_child = File::from(OwnedFd::from(child.stdout.take().expect("a pipe")));

    // How the input ended is known before the program sees its end.
    let (ended, input_end) = mpsc::channel();
    thread::spawn(move || {
        let _ = ended.send(copy(&input, &to_child));
        drop(to_child);
    });

    let written = copy(&from_child, &output);
    if written.is_err() {
        // nobody reads what the program writes: it would say so too
        let _ = child.kill();
    }
    match written {
        Ok(()) => {}
        Err(Failure::Write(error)) if error.kind() == ErrorKind::BrokenPipe => exit(READER_LEFT),
        Err(Failure::Write(error)) => fail(format_args!(
            "standard output cannot be written: {error}; look for a full disk or an output that is not \
             open for writing"
        )),
        Err(Failure::Read(error)) => fail(format_args!("{path}: what it writes cannot be read: {error}")),
    }
    match child.wait() {
        Ok(status) if status.success() => {}
        Ok(status) => fail(format_args!("{path}: it ended with {status}; try 'celltimber check'")),
        Err(error) => fail(format_args!("{path}: how it ended is not known: {error}")),
    }
    match input_end.try_recv() {
        Ok(Ok(())) => {}
        Ok(Err(Failure::Read(error))) => {
            fail(format_args!("{name} cannot be read: {error}; only what came before is answered"))
        }
        _ => fail(format_args!("{path}: it ended before its input; try 'celltimber check'")),
    }
}
