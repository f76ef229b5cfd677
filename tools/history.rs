// The history of a replay file: which requests froze or cleared a PE, and the state that follows.
//
//     history FILE
//
// The answers and the state that is left come from a proved function. What each request did is told
// from it, the reason and the last word of its answer, and the public tables, and the state from that
// alone (plain/history.rs); the two states are compared. The premise is that the state begins with
// zeros. A replay text has no line for a fatal message or a fence clear, so that the fence word stays 0.
//
// Exit 0: both states are the same. 1: a premise fails, or a word differs. 2: it could not be tried.

#[path = "../host/celltimber.rs"]
#[allow(dead_code)]
mod celltimber;
#[path = "../plain/history.rs"]
mod history;
#[path = "../tests/plain_words.rs"]
#[allow(dead_code)]
mod plain_words;
#[path = "../plain/replay.rs"]
#[allow(dead_code)]
mod replay;
#[allow(dead_code)]
mod replay_file;

use history::{History, Public, Record, Step};
use replay::bridge::{self, Part};
use replay_file::{aligned, answers, finish, read, shown, File};
use std::env;
use std::process::exit;

/// A table with its titles and no rows yet.
fn titled<const COLUMNS: usize>(titles: [&str; COLUMNS]) -> Vec<Vec<String>> {
    vec![titles.map(str::to_string).to_vec()]
}

/// The reason in decimal, as the replay text has it.
fn record_text([reason, value, word]: Record) -> String {
    format!("{}, {:x}, {:x}", reason, value, word)
}

/// What a freeze or a clear does.
fn step_text(step: &Step) -> Option<String> {
    match step {
        Step::Freeze(frozen) => {
            let with = |&(pe, record)| format!("PE {:x} with record {}", pe, record_text(record));
            Some(format!("freezes {}", frozen.iter().map(with).collect::<Vec<_>>().join("; ")))
        }
        Step::Clear { pe, part } => {
            let part = match part {
                Part::Mmio => "MMIO bit",
                Part::Dma => "DMA bit",
                Part::Record => "record",
            };
            Some(format!("clears the {} of PE {:x}", part, pe))
        }
        Step::Fence | Step::FenceClear | Step::Nothing => None,
    }
}

/// The parts of a PE at the end, with the lines that they are from.
fn pe_row(file: &File, history: &History, pe: u64) -> Vec<String> {
    let line = |place: usize| file.requests[place].number;
    let [mmio, dma, record] = history::PARTS.map(|part| history.frozen_since(pe, part));
    let bit = |set: Option<(usize, Record)>| {
        set.map_or("clear".to_string(), |(place, _)| format!("set since line {}", line(place)))
    };
    let record = record.map_or("empty".to_string(), |(place, record)| {
        format!("{} of line {}", record_text(record), line(place))
    });
    let released = if history.is_released(pe) { "yes" } else { "no" };
    vec![format!("{:x}", pe), bit(mmio), bit(dma), record, released.to_string()]
}

/// What is printed, and whether both states are the same; or the premise that fails.
fn tell(name: &str) -> Result<(String, bool), String> {
    let mut file = read(name)?;
    if let Some(place) = file.tables.state.iter().position(|&word| word != 0) {
        let word = file.tables.state[place];
        return Err(format!("a state of zeros: state {:x} is {:x} in {}", place, word, name));
    }
    let answers = answers(&mut file);
    let tables = &file.tables;
    let public = Public { n: tables.n, requesters: &tables.requesters, peers: &tables.peers };
    let mut history = History::default();
    let mut rows = titled(["line", "request", "answer", "what it does"]);
    for (line, answer) in file.requests.iter().zip(&answers) {
        let step = Step::of(&public, line.request, answer);
        if let Some(text) = step_text(&step) {
            rows.push(vec![line.number.to_string(), line.text.clone(), shown(answer), text]);
        }
        history.steps.push(step);
    }
    let mut pes = titled(["PE", "MMIO bit", "DMA bit", "record", "released"]);
    let frozen = (0..tables.n).filter(|&pe| history.freeze_from(pe, 0).is_some());
    pes.extend(frozen.map(|pe| pe_row(&file, &history, pe)));

    let told = history.state(tables.n);
    let different = told.iter().zip(&tables.state).position(|(told, left)| told != left);
    let compared = match different {
        None => "same".to_string(),
        Some(k) => format!(
            "DIFFERENT, state {:x} is {:x} by the history and {:x} as it is left",
            k, told[k], tables.state[k]
        ),
    };
    let last = format!("state by the history and as it is left: {}\n", compared);
    Ok((aligned(&rows) + &aligned(&pes) + &last, different.is_none()))
}

fn stop(message: &str) -> ! {
    eprintln!("history: {}", message);
    exit(2)
}

fn main() {
    let arguments = env::args().skip(1).collect::<Vec<_>>();
    let [name] = &arguments[..] else {
        stop("usage: history FILE");
    };
    finish(tell(name))
}
