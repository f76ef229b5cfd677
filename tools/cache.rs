// Isolation through a translation cache and through edits, on two files: which operations belong to a
// group of PEs, and their answers side by side.
//
//     cache GROUP FILE FILE
//
// A file is a size line, set lines and operations. Operations are the request lines of a replay text,
// and, with one tab between two fields and numbers in hexadecimal as there,
//
//     edit WORD VALUE                 the memory word of this number becomes the value
//     invalidate all                  an invalidate for all; the first operation is one
//     invalidate pe PE                by PE
//     invalidate address PE ADDRESS   by PE and address
//     fatal REQUESTER                 a fatal error message
//     unfence                         a fence clear
//
// Each operation is served by a call of its own, on the tables and the cache as the last one left them.
// The caches begin with words that differ. Answers, whom an operation belongs to and the words that the
// group's walks can read come from proved functions. The premises are those of `CachedIsolation` in
// crates/cache_claims/specs/Demand.antt. One on the start that fails is named, and then nothing is
// compared; where one on the operations fails, it is named and what differs is shown.
//
// Exit 0: all is the same. 1: a premise fails, or an answer or a word left differs. 2: it could not be tried.

#[path = "../host/celltimber.rs"]
#[allow(dead_code)]
mod celltimber;
#[path = "../tests/owner_tables.rs"]
mod owner_tables;
#[path = "../tests/plain_words.rs"]
#[allow(dead_code)]
mod plain_words;
mod premises;
#[path = "../plain/replay.rs"]
#[allow(dead_code)]
mod replay;
#[allow(dead_code)]
mod replay_file;

use celltimber::*;
use owner_tables::OwnerTables;
use plain_words::request_words;
use premises::{agree, group, reach, same_afterwards, Group};
use replay::bridge::{self, Bridge};
use replay::{Line, Outcome};
use replay_file::{aligned, finish, shown};
use std::env;
use std::fs;
use std::process::exit;

// ---- Files ----

struct Operation {
    number: usize,
    text: String,
    words: RequestWords,
}

struct Sequence {
    name: String,
    size: String,
    tables: Bridge,
    operations: Vec<Operation>,
}

/// 1 to 16 hexadecimal digits in lower case.
fn number(field: &str) -> Option<u64> {
    let digits = field.bytes().all(|b| b.is_ascii_digit() || (b'a'..=b'f').contains(&b));
    u64::from_str_radix(if digits && field.len() <= 16 { field } else { "" }, 16).ok()
}

/// The words of an operation that a replay text has no line for.
fn operation(line: &str) -> Option<RequestWords> {
    match line.split('\t').collect::<Vec<_>>()[..] {
        ["edit", word, value] => Some(edit(number(word)?, number(value)?)),
        ["invalidate", "all"] => Some(invalidate_all()),
        ["invalidate", "pe", pe] => Some(invalidate_pe(number(pe)?)),
        ["invalidate", "address", pe, address] => {
            Some(invalidate_address(number(pe)?, number(address)?))
        }
        ["fatal", requester] => Some(fatal(number(requester)?)),
        ["unfence"] => Some(fence_clear()),
        _ => None,
    }
}

/// Reads a file; or the premise that it fails. A line of no known form ends it.
fn read(name: &str) -> Result<Sequence, String> {
    let text =
        fs::read_to_string(name).unwrap_or_else(|error| stop(&format!("{}: {}", name, error)));
    let mut size: Option<String> = None;
    let mut tables = Bridge::default();
    let mut operations: Vec<Operation> = Vec::new();
    for (place, line) in text.lines().enumerate() {
        let number = place + 1;
        let parsed = replay::parse(line.as_bytes());
        let words = match parsed {
            Some(Line::Ask(request)) => Some(request_words(request)),
            _ => operation(line),
        };
        let text = line.replace('\t', " ");
        if let Some(words) = words {
            operations.push(Operation { number, text, words });
            continue;
        }
        if replay::take(&mut tables, line.as_bytes()) == Outcome::Bad {
            if size.is_none() && parsed.is_some() {
                break;
            }
            stop(&format!("{}: line {} is of no known form: '{}'", name, number, text));
        }
        if let Some(Line::Size { .. }) = parsed {
            size = Some(text);
        }
        if let Some(first) = operations.first() {
            return Err(format!(
                "size and set lines before the first operation: {} has line {} after the operation in line {}",
                name, number, first.number
            ));
        }
    }
    let size = size.ok_or_else(|| format!("a size line: {} has none that is good", name))?;
    match operations.first() {
        Some(first) if first.words == invalidate_all() => {
            Ok(Sequence { name: name.to_string(), size, tables, operations })
        }
        _ => Err(format!("the invalidate for all comes first: not in {}", name)),
    }
}

// ---- Runs ----

/// What an operation is compared by: an own one whole, another's fatal message or fence clear that is
/// done by its kind.
#[derive(Clone, Copy, PartialEq, Eq)]
enum Place {
    Own(RequestWords),
    Other(u64),
}

/// An operation that has a place.
struct Met<'a> {
    operation: &'a Operation,
    place: Place,
    whose: String,
    answer: AnswerWords,
    cache: String,
    /// Memory as an edit meets it and as it leaves it.
    memory: Option<[Vec<u64>; 2]>,
}

fn serve(tables: &mut Bridge, cache: &mut [u64], words: &RequestWords) -> AnswerWords {
    let mut answer = [0; ANSWER_WORDS];
    let count = cached_run(
        tables.n,
        tables.m,
        tables.r,
        tables.installed,
        &tables.requesters,
        &tables.translation,
        &mut tables.memory,
        &tables.peers,
        &mut tables.interrupts,
        &tables.windows,
        &tables.segments,
        &mut tables.state,
        cache,
        words,
        &mut answer,
    );
    if count != 1 {
        stop(&format!("{} of 1 operation served", count));
    }
    answer
}

/// What an operation did to the cache, told from its words before and after. A DMA that passes through a
/// page table and changes none was a hit.
fn effect(words: &RequestWords, answer: &AnswerWords, before: &[u64], after: &[u64]) -> String {
    let through_table = answer[AT_NAME] == PASS && answer[AT_WORDS] > 0 && words[0] == DMA;
    let slots = before.chunks(SLOT_WORDS).zip(after.chunks(SLOT_WORDS));
    let dropped = slots.filter(|(x, y)| x[0] != 0 && y[0] == 0).count();
    match (through_table, before == after) {
        (true, true) => "hit".to_string(),
        (true, false) => "fill".to_string(),
        (false, _) if dropped > 0 => format!("drops {}", dropped),
        (false, _) => "-".to_string(),
    }
}

/// Serves all operations, one to a call, and gives those that have a place. Tables and cache are left as
/// they leave them.
fn run<'a>(
    operations: &'a [Operation],
    tables: &mut Bridge,
    cache: &mut [u64],
    group: &Group,
) -> Vec<Met<'a>> {
    let mut all = Vec::new();
    for operation in operations {
        let words = &operation.words;
        let owner = OwnerTables::of(tables).owner(words);
        let edits = words[0] == EDIT;
        let own = match edits {
            false => member(group, owner),
            true => reach(tables, group).get(words[1] as usize).is_some_and(|&mark| mark != 0),
        };
        let (memory, kept) = (tables.memory.clone(), cache.to_vec());
        let answer = serve(tables, cache, words);
        let event = [FATAL, FENCE_CLEAR].contains(&words[0]) && answer[AT_NAME] == DONE;
        let place = match own {
            true => Place::Own(*words),
            false if event => Place::Other(words[0]),
            false => continue,
        };
        all.push(Met {
            operation,
            place,
            whose: if edits { "group".to_string() } else { format!("{:x}", owner) },
            answer,
            cache: effect(words, &answer, &kept, cache),
            memory: edits.then(|| [memory, tables.memory.clone()]),
        });
    }
    all
}

// ---- Premises on the operations ----

fn told(name: &str, met: Option<&Met>) -> String {
    match met {
        None => format!("{} has no further one", name),
        Some(met) => {
            format!("{} has '{}' in line {}", name, met.operation.text, met.operation.number)
        }
    }
}

fn same_places(names: [&str; 2], mets: &[Vec<Met>; 2]) -> Result<(), String> {
    for k in 0..mets[0].len().max(mets[1].len()) {
        let [x, y] = mets.each_ref().map(|list| list.get(k));
        if x.map(|x| x.place) != y.map(|y| y.place) {
            return Err(format!(
                "the same own operations, in the same order: {}, {}",
                told(names[0], x),
                told(names[1], y)
            ));
        }
    }
    Ok(())
}

/// Each word that an own edit brings into reach is equal in both runs at that moment.
fn fresh(
    names: [&str; 2],
    first: &Bridge,
    mets: &[Vec<Met>; 2],
    group: &Group,
) -> Result<(), String> {
    for (x, y) in mets[0].iter().zip(&mets[1]) {
        let (Some([before, after]), Some([other, _])) = (&x.memory, &y.memory) else { continue };
        let marks = [before, after].map(|memory| {
            let tables = Bridge { memory: memory.clone(), ..first.clone() };
            reach(&tables, group)
        });
        let new = (0..before.len()).filter(|&j| marks[0][j] == 0 && marks[1][j] != 0);
        if let Some(j) = new.into_iter().find(|&j| before[j] != other[j]) {
            return Err(format!(
                "equal words where an edit brings them into reach: at '{}' memory {:x} is {:x} in {}, {:x} in {}",
                x.operation.text, j, before[j], names[0], other[j], names[1]
            ));
        }
    }
    Ok(())
}

// ---- Answers ----

/// The operations of both runs in one order: the longest list that both have in common is paired.
fn paired<'a>(mets: &'a [Vec<Met<'a>>; 2]) -> Vec<(Option<&'a Met<'a>>, Option<&'a Met<'a>>)> {
    let [a, b] = mets;
    let mut common = vec![vec![0; b.len() + 1]; a.len() + 1];
    for i in (0..a.len()).rev() {
        for j in (0..b.len()).rev() {
            common[i][j] = match a[i].place == b[j].place {
                true => common[i + 1][j + 1] + 1,
                false => common[i + 1][j].max(common[i][j + 1]),
            };
        }
    }
    let (mut i, mut j, mut pairs) = (0, 0, Vec::new());
    while i < a.len() || j < b.len() {
        let (x, y) = (a.get(i), b.get(j));
        let same = x.zip(y).is_some_and(|(x, y)| x.place == y.place);
        let left = !same && (y.is_none() || x.is_some() && common[i + 1][j] >= common[i][j + 1]);
        pairs.push(match (same, left) {
            (true, _) => (x, y),
            (false, true) => (x, None),
            (false, false) => (None, y),
        });
        i += usize::from(same || left);
        j += usize::from(same || !left);
    }
    pairs
}

/// A row, and whether both answers are there and the same.
fn row(x: Option<&Met>, y: Option<&Met>) -> (Vec<String>, bool) {
    let field =
        |met: Option<&Met>, text: &dyn Fn(&Met) -> String| met.map_or("left out".to_string(), text);
    let line =
        |met: Option<&Met>| met.map_or("-".to_string(), |met| met.operation.number.to_string());
    let any = x.or(y);
    let same = x.zip(y).is_some_and(|(x, y)| x.answer == y.answer);
    let cache = |met: Option<&Met>| met.map_or("-".to_string(), |met| met.cache.clone());
    let fields = vec![
        line(x),
        line(y),
        field(any, &|met| met.whose.clone()),
        field(any, &|met| met.operation.text.clone()),
        field(x, &|met| shown(&met.answer)),
        cache(x),
        field(y, &|met| shown(&met.answer)),
        cache(y),
        if same { "same" } else { "DIFFERENT" }.to_string(),
    ];
    (fields, same)
}

/// What is printed, and whether all is the same; or the premise on the start that fails.
fn compare(group_text: &str, names: [&str; 2]) -> Result<(String, bool), String> {
    let files = [read(names[0])?, read(names[1])?];
    if files[0].size != files[1].size {
        let [x, y] = files.each_ref().map(|file| format!("{} has '{}'", file.name, file.size));
        return Err(format!("the same size line: {}, {}", x, y));
    }
    let group = group(group_text, files[0].tables.n)?;
    agree(&files.each_ref().map(|file| (&*file.name, &file.tables)), &group)?;

    let mut tables = files.each_ref().map(|file| file.tables.clone());
    // slots of PEs 0 to 2 and empty ones, in each cache other words
    let mut caches = [3, 5].map(|step| {
        let word = |k: u64| if k % 4 == 0 { k / 4 * step % 4 } else { k * step };
        (0..CACHE_WORDS as u64).map(word).collect::<Vec<_>>()
    });
    let [first, second] = &mut tables;
    let [one, two] = &mut caches;
    let mets = [
        run(&files[0].operations, first, one, &group),
        run(&files[1].operations, second, two, &group),
    ];

    let mut text = format!("group {}; first {}; second {}\n", group_text, names[0], names[1]);
    let premise =
        same_places(names, &mets).and_then(|()| fresh(names, &files[0].tables, &mets, &group));
    let broken = premise.is_err();
    if let Err(premise) = premise {
        text += &format!("premise fails: {}\n", premise);
    }
    let title = [
        "first",
        "second",
        "PE",
        "operation",
        "answer in the first",
        "cache",
        "answer in the second",
        "cache",
        "",
    ];
    let mut rows = vec![title.map(str::to_string).to_vec()];
    let (mut alike, mut different) = (0, 0);
    for (x, y) in paired(&mets) {
        if x.or(y).is_some_and(|met| matches!(met.place, Place::Other(_))) {
            continue;
        }
        let (fields, same) = row(x, y);
        alike += usize::from(same);
        different += usize::from(!same);
        if !broken || !same {
            rows.push(fields);
        }
    }
    text += &aligned(&rows);
    let ends = [(names[0], &tables[0]), (names[1], &tables[1])];
    let afterwards = same_afterwards(&ends, &group);
    let word = if afterwards { "same" } else { "DIFFERENT" };
    text += &format!(
        "stop bits, error records and interrupt records of the group, and the fence word, afterwards: {}\n",
        word
    );
    let words = tables[0].memory.iter().zip(&tables[1].memory).filter(|(x, y)| x != y).count();
    let [one, two] = caches.each_ref().map(|cache| cache.chunks(SLOT_WORDS));
    let slots = one.zip(two).filter(|(x, y)| x != y).count();
    text +=
        &format!("memory words that differ afterwards: {}; slots of the cache: {}\n", words, slots);
    text += &format!(
        "{} of {} and {} operations belong to the group: {} same, {} different\n",
        alike + different,
        files[0].operations.len(),
        files[1].operations.len(),
        alike,
        different
    );
    Ok((text, !broken && different == 0 && afterwards))
}

fn stop(message: &str) -> ! {
    eprintln!("cache: {}", message);
    exit(2)
}

fn main() {
    let arguments = env::args().skip(1).collect::<Vec<_>>();
    let [group, first, second] = &arguments[..] else {
        stop("usage: cache GROUP FILE FILE");
    };
    finish(compare(group, [first, second]))
}
