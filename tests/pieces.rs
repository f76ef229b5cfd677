// Replay text in pieces: what the replay program writes does not depend on where its input is cut.
//
//     pieces PROGRAM LENGTH FILE...
//
// Gives each file to PROGRAM in pieces of LENGTH bytes, 4,096 at most. Its standard input is a
// datagram socket: one datagram is one read, and an empty one is the end of the input. What comes
// out has to be what the plain program writes for the whole. On a difference it prints the file,
// the length and the first line that differs.

#[path = "../plain/replay.rs"]
#[allow(dead_code)]
mod replay;

use std::env;
use std::fs;
use std::io;
use std::os::fd::OwnedFd;
use std::os::unix::net::UnixDatagram;
use std::process::{exit, Command, Stdio};
use std::thread;

/// The bytes that PROGRAM reads at once: of a longer datagram the rest would be lost.
const LONGEST: usize = 4_096;

/// What the program writes for the input in pieces. The pieces are sent while its output is read.
fn in_pieces(program: &str, input: &[u8], length: usize) -> io::Result<Vec<u8>> {
    let (sender, receiver) = UnixDatagram::pair()?;
    // the command, and with it this process's copy of the receiving end, is gone after the spawn
    let child = Command::new(program)
        .stdin(Stdio::from(OwnedFd::from(receiver)))
        .stdout(Stdio::piped())
        .spawn()?;
    thread::scope(|scope| {
        let sent = scope.spawn(move || {
            input.chunks(length).chain([&[][..]]).try_for_each(|piece| sender.send(piece).map(drop))
        });
        let output = child.wait_with_output()?;
        if !output.status.success() {
            return Err(io::Error::other(format!("{program}: {}", output.status)));
        }
        sent.join().expect("the sender")?;
        Ok(output.stdout)
    })
}

fn whole(input: &[u8]) -> Vec<u8> {
    let mut out = Vec::new();
    replay::run(&mut &*input, &mut out).expect("a replay into memory");
    out
}

/// Says where two outputs differ, and returns whether they are the same.
fn same(file: &str, length: usize, found: &[u8], expected: &[u8]) -> bool {
    if found == expected {
        return true;
    }
    let lines = |text: &[u8]| -> Vec<String> {
        text.split(|&byte| byte == b'\n').map(|line| String::from_utf8_lossy(line).into()).collect()
    };
    let (found, expected) = (lines(found), lines(expected));
    let place = found.iter().zip(&expected).take_while(|(a, b)| a == b).count();
    let line = |lines: &[String]| lines.get(place).cloned().unwrap_or("nothing".to_string());
    println!("{file}, pieces of {length}, line {place}: {} for {}", line(&found), line(&expected));
    false
}

fn main() {
    let words: Vec<String> = env::args().skip(1).collect();
    let [program, length, files @ ..] = &words[..] else { panic!("pieces PROGRAM LENGTH FILE...") };
    let length: usize = length.parse().expect("a length");
    assert!((1..=LONGEST).contains(&length), "a length from 1 to {LONGEST}");
    let mut good = true;
    for file in files {
        let input = fs::read(file).unwrap_or_else(|error| panic!("{file}: {error}"));
        match in_pieces(program, &input, length) {
            Ok(found) => good &= same(file, length, &found, &whole(&input)),
            Err(error) => {
                println!("{file}, pieces of {length}: {error}");
                good = false;
            }
        }
    }
    exit(i32::from(!good));
}
