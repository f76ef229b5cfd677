// The ends of `celltimber replay` that a shell cannot make.
//
//     ends COMMAND
//
// Runs `COMMAND replay` on a non-blocking socket and on a non-blocking pipe, a line at a time: the next one is
// sent when the one before is answered, so that between two lines there is nothing to read. Then into a
// non-blocking socket that is full, and on a socket whose other end fails in the middle of a line.
// One line to each check; exit 0 only if all is well.

use std::env;
use std::fs::File;
use std::io::{self, BufRead, BufReader, ErrorKind, Read, Write};
use std::os::fd::OwnedFd;
use std::os::unix::net::UnixStream;
use std::process::{exit, Child, Command, Stdio};
use std::thread;

const LINES: usize = 100;
/// Many lines, sent in two parts. The first is more than a pipe holds.
const MANY_LINES: [usize; 2] = [65_536, 134_464];

/// The output for lines that are bad.
fn answers(lines: usize) -> String {
    let mut text = "n\tanswer\treason\tvalue\twords\n".to_string();
    for number in 1..=lines {
        text.push_str(&format!("{number}\tbad\t0\t0000000000000000\t0\n"));
    }
    text
}

fn nonblocking(end: OwnedFd) -> io::Result<OwnedFd> {
    // the call that a stream makes for this is one for any file
    let stream = UnixStream::from(end);
    stream.set_nonblocking(true)?;
    Ok(OwnedFd::from(stream))
}

fn start(command: &str, input: impl Into<Stdio>, output: impl Into<Stdio>) -> io::Result<Child> {
    Command::new(command).arg("replay").stdin(input).stdout(output).stderr(Stdio::piped()).spawn()
}

/// Whether the command ends with the status and has said so many lines.
fn ends(mut child: Child, status: i32, lines: usize) -> io::Result<bool> {
    let mut said = String::new();
    child.stderr.take().expect("a pipe").read_to_string(&mut said)?;
    let ended = child.wait()?;
    let good = ended.code() == Some(status) && said.lines().count() == lines;
    if !good {
        println!("{ended}, and it said:\n{said}");
    }
    Ok(good)
}

fn line_by_line(command: &str, ours: OwnedFd, theirs: OwnedFd) -> io::Result<bool> {
    let mut child = start(command, nonblocking(theirs)?, Stdio::piped())?;
    let mut output = BufReader::new(child.stdout.take().expect("a pipe"));
    let mut input = File::from(ours);
    let mut found = String::new();
    output.read_line(&mut found)?;
    for _ in 0..LINES {
        input.write_all(b"x\n")?;
        if output.read_line(&mut found)? == 0 {
            break;
        }
    }
    drop(input);
    output.read_to_string(&mut found)?;
    Ok(ends(child, 0, 0)? && found == answers(LINES))
}

fn socket(command: &str) -> io::Result<bool> {
    let (ours, theirs) = UnixStream::pair()?;
    line_by_line(command, ours.into(), theirs.into())
}

fn pipe(command: &str) -> io::Result<bool> {
    let (theirs, ours) = io::pipe()?;
    line_by_line(command, ours.into(), theirs.into())
}

/// The socket is full at the start, and is read from when some input has been taken.
fn full_socket(command: &str) -> io::Result<bool> {
    let (mut ours, theirs) = UnixStream::pair()?;
    theirs.set_nonblocking(true)?;
    let mut expected = String::new();
    loop {
        match (&theirs).write(&[b'.'; 4_096]) {
            Ok(count) => expected.push_str(&".".repeat(count)),
            Err(error) if error.kind() == ErrorKind::WouldBlock => break,
            Err(error) => return Err(error),
        }
    }
    expected.push_str(&answers(MANY_LINES.iter().sum()));
    let (input, mut sender) = io::pipe()?;
    let child = start(command, input, OwnedFd::from(theirs))?;
    let [first, second] = MANY_LINES.map(|lines| b"x\n".repeat(lines));
    sender.write_all(&first)?;
    let sent = thread::spawn(move || sender.write_all(&second));
    let mut found = Vec::new();
    ours.read_to_end(&mut found)?;
    sent.join().expect("the sender")?;
    Ok(ends(child, 0, 0)? && found == expected.as_bytes())
}

/// A socket that is closed with something unread: after what it has sent, a read of the other end fails.
fn reset_socket(command: &str) -> io::Result<bool> {
    let (mut ours, mut theirs) = UnixStream::pair()?;
    theirs.write_all(b"unread")?;
    ours.write_all(b"x\nx")?;
    drop(ours);
    let mut child = start(command, OwnedFd::from(theirs), Stdio::piped())?;
    let mut found = String::new();
    child.stdout.take().expect("a pipe").read_to_string(&mut found)?;
    Ok(ends(child, 1, 1)? && found == answers(2))
}

fn main() {
    let words: Vec<String> = env::args().skip(1).collect();
    let [command] = &words[..] else { panic!("ends COMMAND") };
    let mut good = true;
    let mut check = |name: &str, result: io::Result<bool>| {
        let ok = matches!(result, Ok(true));
        println!("{}  {name}", if ok { "ok  " } else { "FAIL" });
        if let Err(error) = result {
            println!("{error}");
        }
        good &= ok;
    };
    check("a non-blocking socket as input", socket(command));
    check("a non-blocking pipe as input", pipe(command));
    check("a non-blocking socket as output", full_socket(command));
    check("a socket that fails in the middle of a line", reset_socket(command));
    exit(i32::from(!good));
}
