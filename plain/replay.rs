// Replay: request lines in, answer lines out.
//
//     replay [--count FILE] [INPUT]
//
// Reads INPUT, or standard input, and writes to standard output. With --count it
// also writes to FILE how often each answer and each reason came.

use std::env;
use std::fs::File;
use std::io::{self, BufRead, BufReader, BufWriter, Write};
use std::process;

use self::bridge::{Answer, Bridge, Name, Part, Request};

// No line is a fatal message or a fence clear.
#[path = "bridge.rs"]
#[allow(dead_code)]
pub mod bridge;

/// A well-formed line; its numbers may still be off the limits.
#[derive(Clone, Copy, Debug, PartialEq, Eq)]
pub enum Line {
    Size { n: u64, m: u64, r: u64, memory_words: u64 },
    Set { table: Table, index: u64, value: u64 },
    Ask(Request),
}

#[derive(Clone, Copy, Debug, PartialEq, Eq)]
pub enum Table {
    Requesters,
    Translation,
    Memory,
    Peers,
    Interrupts,
    Windows,
    Segments,
    State,
}

/// What one line gives: no output, the answer to a request, or bad.
#[derive(Clone, Copy, Debug, PartialEq, Eq)]
pub enum Outcome {
    Silent,
    Answered(Answer),
    Bad,
}

/// Bytes of installed memory, on every bridge of a replay: 4 GiB.
pub const INSTALLED: u64 = 1 << 32;

/// The most fields a line can have: a dma line.
const MOST_FIELDS: usize = 6;

/// Reads one line without its line feed. None is a line of no known form.
pub fn parse(line: &[u8]) -> Option<Line> {
    let mut fields: [&[u8]; MOST_FIELDS] = [b""; MOST_FIELDS];
    let mut count = 0;
    for field in line.split(|&byte| byte == b'\t') {
        if count == MOST_FIELDS {
            return None;
        }
        fields[count] = field;
        count += 1;
    }
    let line = match fields[..count] {
        [b"size", n, m, r, memory_words] => Line::Size {
            n: number(n)?,
            m: number(m)?,
            r: number(r)?,
            memory_words: number(memory_words)?,
        },
        [b"set", name, index, value] => {
            Line::Set { table: table(name)?, index: number(index)?, value: number(value)? }
        }
        [b"dma", requester, direction, address, length, data] => Line::Ask(Request::Dma {
            requester: number(requester)?,
            write: match direction {
                b"r" => false,
                b"w" => true,
                _ => return None,
            },
            address: number(address)?,
            length: number(length)?,
            data: match number(data)? {
                data if data < 1 << 32 => data as u32,
                _ => return None,
            },
        }),
        [b"load", address, width] => {
            Line::Ask(Request::Load { address: number(address)?, width: number(width)? })
        }
        [b"store", address, width] => {
            Line::Ask(Request::Store { address: number(address)?, width: number(width)? })
        }
        [b"error", requester] => Line::Ask(Request::Error { requester: number(requester)? }),
        [b"clear", pe, part] => Line::Ask(Request::Clear {
            pe: number(pe)?,
            part: match part {
                b"mmio" => Part::Mmio,
                b"dma" => Part::Dma,
                b"record" => Part::Record,
                _ => return None,
            },
        }),
        [b"end", interrupt] => Line::Ask(Request::End { interrupt: number(interrupt)? }),
        [b"prio", interrupt, priority] => Line::Ask(Request::Priority {
            interrupt: number(interrupt)?,
            priority: number(priority)?,
        }),
        _ => return None,
    };
    Some(line)
}

/// 1 to 16 lower-case hexadecimal digits.
fn number(field: &[u8]) -> Option<u64> {
    if field.is_empty() || field.len() > 16 {
        return None;
    }
    let mut value = 0;
    for &byte in field {
        let digit = match byte {
            b'0'..=b'9' => byte - b'0',
            b'a'..=b'f' => byte - b'a' + 10,
            _ => return None,
        };
        value = value << 4 | u64::from(digit);
    }
    Some(value)
}

fn table(name: &[u8]) -> Option<Table> {
    Some(match name {
        b"requesters" => Table::Requesters,
        b"translation" => Table::Translation,
        b"memory" => Table::Memory,
        b"peers" => Table::Peers,
        b"interrupts" => Table::Interrupts,
        b"windows" => Table::Windows,
        b"segments" => Table::Segments,
        b"state" => Table::State,
        _ => return None,
    })
}

/// Takes one line: sizes the bridge, sets a word or answers a request.
/// A bridge that was never sized has no tables: a set is bad, a request is 1.
pub fn take(bridge: &mut Bridge, line: &[u8]) -> Outcome {
    match parse(line) {
        None => Outcome::Bad,
        Some(Line::Size { n, m, r, memory_words }) => {
            if n < 1 || n > 16 || m > 64 || r < 1 || r > 64 || memory_words > 4_096 {
                return Outcome::Bad;
            }
            *bridge = Bridge::new(n, m, r, INSTALLED, memory_words);
            Outcome::Silent
        }
        Some(Line::Set { table, index, value }) => {
            let good = match table {
                Table::Requesters => set_narrow(&mut bridge.requesters, index, value),
                Table::Translation => set(&mut bridge.translation, index, value),
                Table::Memory => set(&mut bridge.memory, index, value),
                Table::Peers => set(&mut bridge.peers, index, value),
                Table::Interrupts => set(&mut bridge.interrupts, index, value),
                Table::Windows => set(&mut bridge.windows, index, value),
                Table::Segments => set_narrow(&mut bridge.segments, index, value),
                Table::State => set(&mut bridge.state, index, value),
            };
            if good {
                Outcome::Silent
            } else {
                Outcome::Bad
            }
        }
        Some(Line::Ask(request)) => Outcome::Answered(bridge.handle(request)),
    }
}

/// Sets a word of a 64-bit table, unless the index is off its limits.
fn set(table: &mut Vec<u64>, index: u64, value: u64) -> bool {
    if index >= table.len() as u64 {
        return false;
    }
    table[index as usize] = value;
    true
}

/// Sets a word of a 16-bit table, unless index or value is off its limits.
fn set_narrow(table: &mut Vec<u16>, index: u64, value: u64) -> bool {
    if index >= table.len() as u64 || value > 0xFFFF {
        return false;
    }
    table[index as usize] = value as u16;
    true
}

const ANSWERS: [&str; 8] = ["pass", "msi", "held", "ones", "drop", "refuse", "done", "bad"];
const BAD: usize = 7;

fn place(name: Name) -> usize {
    match name {
        Name::Pass => 0,
        Name::Msi => 1,
        Name::Held => 2,
        Name::Ones => 3,
        Name::Drop => 4,
        Name::Refuse => 5,
        Name::Done => 6,
    }
}

/// How often each answer and each reason came.
#[derive(Default)]
pub struct Counts {
    answers: [u64; 8],
    reasons: [u64; 19],
}

impl Counts {
    /// One line to each answer and to each reason that the text can show.
    fn write(&self, out: &mut dyn Write) -> io::Result<()> {
        for (name, count) in ANSWERS.iter().zip(&self.answers) {
            writeln!(out, "{}\t{}", name, count)?;
        }
        for reason in (1..=11).chain([14, 15, 17, 18]) {
            writeln!(out, "reason-{}\t{}", reason, self.reasons[reason])?;
        }
        Ok(())
    }
}

/// Runs a whole input.
pub fn run(input: &mut dyn BufRead, out: &mut dyn Write) -> io::Result<Counts> {
    let mut counts = Counts::default();
    let mut bridge = Bridge::default();
    let mut line = Vec::new();
    let mut n: u64 = 0;
    out.write_all(b"n\tanswer\treason\tvalue\twords\n")?;
    loop {
        line.clear();
        if input.read_until(b'\n', &mut line)? == 0 {
            return Ok(counts);
        }
        if line.last() == Some(&b'\n') {
            line.pop();
        }
        let (name, reason, value, words) = match take(&mut bridge, &line) {
            Outcome::Silent => continue,
            Outcome::Answered(answer) => {
                (place(answer.name), answer.reason, answer.value, answer.words)
            }
            Outcome::Bad => (BAD, 0, 0, 0),
        };
        n += 1;
        counts.answers[name] += 1;
        counts.reasons[reason as usize] += 1;
        writeln!(out, "{}\t{}\t{}\t{:016x}\t{}", n, ANSWERS[name], reason, value, words)?;
    }
}

fn run_program() -> Result<(), String> {
    let mut count_file = None;
    let mut input_file = None;
    let mut arguments = env::args_os().skip(1);
    while let Some(argument) = arguments.next() {
        if argument == "--count" && count_file.is_none() {
            count_file = Some(arguments.next().ok_or("--count needs a file")?);
        } else if input_file.is_none() {
            input_file = Some(argument);
        } else {
            return Err("usage: replay [--count FILE] [INPUT]".to_string());
        }
    }

    let mut input: Box<dyn BufRead> = match input_file {
        None => Box::new(BufReader::with_capacity(1 << 16, io::stdin())),
        Some(path) => {
            let file =
                File::open(&path).map_err(|e| format!("{}: {}", path.to_string_lossy(), e))?;
            Box::new(BufReader::with_capacity(1 << 16, file))
        }
    };
    let mut out = BufWriter::with_capacity(1 << 16, io::stdout());
    let counts = run(&mut *input, &mut out)
        .and_then(|counts| out.flush().map(|()| counts))
        .map_err(|e| e.to_string())?;

    if let Some(path) = count_file {
        File::create(&path)
            .and_then(|mut file| counts.write(&mut file))
            .map_err(|e| format!("{}: {}", path.to_string_lossy(), e))?;
    }
    Ok(())
}

fn main() {
    if let Err(message) = run_program() {
        eprintln!("replay: {}", message);
        process::exit(1);
    }
}
