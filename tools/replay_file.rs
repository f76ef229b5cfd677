// A replay file, its answers by the exported function, and columns to show them in.
// The file that includes this one has `bridge`, `celltimber`, `plain_words`, `replay`, and `stop`, which
// says that nothing could be tried.

use super::bridge::{Bridge, Request};
use super::celltimber::*;
use super::plain_words::{request_words, run_proved};
use super::replay::{self, Line, Outcome};
use super::stop;
use std::fs;
use std::io::{self, Write};
use std::process::exit;

pub struct RequestLine {
    pub number: usize,
    pub text: String,
    pub request: Request,
    pub words: RequestWords,
}

/// A replay file: its size line, the tables after its set lines, and its requests. A bad line
/// changes nothing and belongs to nobody. The installed size is that of the replay program.
pub struct File {
    pub name: String,
    pub size: (usize, String),
    pub tables: Bridge,
    pub requests: Vec<RequestLine>,
}

/// Reads a file; or the premise that it fails.
pub fn read(name: &str) -> Result<File, String> {
    let bytes = fs::read(name).unwrap_or_else(|error| stop(&format!("{}: {}", name, error)));
    let mut size = None;
    let mut tables = Bridge::default();
    let mut requests: Vec<RequestLine> = Vec::new();
    for (place, line) in bytes.split(|&byte| byte == b'\n').enumerate() {
        let number = place + 1;
        let text = String::from_utf8_lossy(line).replace('\t', " ");
        let parsed = replay::parse(line);
        if let Some(Line::Ask(request)) = parsed {
            let words = request_words(request);
            requests.push(RequestLine { number, text, request, words });
            continue;
        }
        if replay::take(&mut tables, line) == Outcome::Bad {
            continue;
        }
        if let Some(Line::Size { .. }) = parsed {
            size = Some((number, text));
        }
        if let Some(first) = requests.first() {
            return Err(format!(
                "size and set lines before the first request: {} has line {} after the request in line {}",
                name, number, first.number
            ));
        }
    }
    match size {
        None => Err(format!("a size line: {} has none that is good", name)),
        Some(size) => Ok(File { name: name.to_string(), size, tables, requests }),
    }
}

/// All answers of a file; its tables are left as the requests leave them.
pub fn answers(file: &mut File) -> Vec<AnswerWords> {
    let requests = file.requests.iter().flat_map(|line| line.words).collect::<Vec<_>>();
    let mut answers = vec![0; file.requests.len() * ANSWER_WORDS];
    let count = run_proved(&mut file.tables, &requests, &mut answers);
    if count != file.requests.len() {
        stop(&format!("{}: {} of {} requests served", file.name, count, file.requests.len()));
    }
    answers.chunks_exact(ANSWER_WORDS).map(|x| x.try_into().unwrap()).collect()
}

/// Answer, reason, value and words as the replay text has them; then PE, server and priority, or the
/// word that a walk stopped at.
pub fn shown(answer: &AnswerWords) -> String {
    let [name, reason, value, words, pe, server, priority, word] = *answer;
    let names = ["pass", "msi", "held", "ones", "drop", "refuse", "done"];
    let first = format!("{} {} {:016x} {}", names[name as usize], reason, value, words);
    match (name, reason) {
        (PASS, _) => format!("{} PE {:x}", first, pe),
        (MSI, _) => format!("{} server {:x} priority {:x}", first, server, priority),
        (_, REASON_TABLE_WORD | REASON_OUTSIDE_MEMORY) => {
            format!("{} word {:x}", first, word)
        }
        _ => first,
    }
}

/// Rows as lines, each column as wide as its widest field.
pub fn aligned(rows: &[Vec<String>]) -> String {
    let widths = (0..rows[0].len())
        .map(|k| rows.iter().map(|row| row[k].len()).max().unwrap())
        .collect::<Vec<_>>();
    let line = |row: &Vec<String>| {
        let fields = row.iter().zip(&widths).map(|(field, &width)| format!("{:width$}", field));
        format!("{}\n", fields.collect::<Vec<_>>().join("  ").trim_end())
    };
    rows.iter().map(line).collect()
}

/// Prints what was found, or the premise that fails, and exits with 0 only if all is the same.
pub fn finish(found: Result<(String, bool), String>) -> ! {
    let (text, same) =
        found.unwrap_or_else(|premise| (format!("premise fails: {}\n", premise), false));
    let mut output = io::stdout();
    if let Err(error) = output.write_all(text.as_bytes()).and_then(|()| output.flush()) {
        stop(&format!("standard output: {}", error));
    }
    exit(i32::from(!same))
}
