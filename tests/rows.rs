// The rows of the definition's tables of cases as replay text, with the answers that the rows say.
//
//     rows CRATES FOLDER
//
// CRATES is the folder of the crates. Writes into FOLDER
//     rows.txt        the text
//     rows.out        what has to come out, by the rows
//     rows.lines      the row that each output line is of
//     rows.unsaid     each row that the text cannot say, and why
// and prints how many rows there are of each sort.
//
// A row of a request is also asked of the plain bridge itself, on the row's own tables and installed
// size: the whole answer and every word of state and interrupts afterwards. Exits with 1 where one is
// another.
//
// A row of a request becomes a size line, a set line for each word that is not 0, and the request.
// Then further requests show what the row leaves: the fence, both stop bits of every PE, and P and Q
// of every interrupt that has a word other than 0. Error records, priorities, the bits of a stop word
// above the lowest two and those of the fence word above the lowest are in no answer, so the text
// cannot show them. The text has no line for a fatal message and for a fence clear.
// A row that reason 1 answers stands before the first size line: the text has no tables there.
// The text takes one installed size: rows with another cannot be said.
// A row of `formed` is a request on a bridge that serves it, and a row of `sized` a size line, with
// the last index of each table and the one after it.

#[path = "../host/celltimber.rs"]
#[allow(dead_code)]
mod celltimber;
mod definition;
#[allow(dead_code)]
mod plain_words;
#[path = "../plain/replay.rs"]
#[allow(dead_code)]
mod replay;

use definition::{Modules, Value};
use plain_words::answer_words;
use replay::bridge::{self, fence_place, Bridge, Request, FENCE, STATE_WORDS};
use replay::{Line, INSTALLED};
use std::borrow::Borrow;
use std::env;
use std::fs;
use std::path::Path;
use std::process::exit;

const CASES: &str = "profile.proofs.Cases";
const REASONS: &str = "profile.proofs.Reasons";
const LIMITS: &str = "profile.proofs.LimitRows";
const ANSWER: &str = "kinds.specs.Answer";
const NUMBER: &str = "kinds.specs.Number";

const REQUESTERS: &str = "requesters";
const TRANSLATION: &str = "translation";
const MEMORY: &str = "memory";
const PEERS: &str = "peers";
const INTERRUPTS: &str = "interrupts";
const WINDOWS: &str = "windows";
const SEGMENTS: &str = "segments";
const STATE: &str = "state";

const TOO_LARGE: &str = "larger than the text's limits";
const NO_SUCH_TABLE: &str = "sizes or lengths that the text cannot lend";
const NO_SUCH_LINE: &str = "a request that the text has no line for";
const NO_NAME: &str = "words that name no request";
const NO_SUCH_SIZE: &str = "an installed size that the text does not take";
const NO_REQUEST: &str = "a page table by itself, which no request asks about";

/// The limits of a size line: N, M, R and memory.
const MOST: [u64; 4] = [16, 64, 64, 4_096];

#[derive(Default)]
struct Output {
    text: String,
    answers: Vec<String>,
    rows: Vec<String>,
    /// The row that is being written.
    row: String,
}

impl Output {
    fn line(&mut self, fields: &[impl Borrow<str>]) {
        self.text.push_str(&fields.join("\t"));
        self.text.push('\n');
    }

    fn size(&mut self, sizes: [u64; 4]) {
        let [n, m, r, memory] = sizes.map(|size| format!("{size:x}"));
        self.line(&["size", &n, &m, &r, &memory]);
    }

    fn set(&mut self, table: &str, index: usize, value: u64) {
        self.line(&["set", table, &format!("{index:x}"), &format!("{value:x}")]);
    }

    fn set_all(&mut self, table: &str, words: &[u64]) {
        for (index, &word) in words.iter().enumerate().filter(|(_, &word)| word != 0) {
            self.set(table, index, word);
        }
    }

    fn answer(&mut self, name: &str, reason: u64, value: u64, words: u64) {
        let n = self.answers.len() + 1;
        self.answers.push(format!("{n}\t{name}\t{reason}\t{value:016x}\t{words}"));
        self.rows.push(format!("{n}\t{}", self.row));
    }

    fn refuse(&mut self, reason: u64) {
        self.answer("refuse", reason, 0, 0);
    }
}

// ---- Rows ----

/// A request as a line, or why the text cannot say it.
fn request_fields(request: &Value) -> Result<Vec<String>, &'static str> {
    let (name, parts) = request.variant();
    let hex = |value: &Value| format!("{:x}", value.word());
    let address = |value: &Value| hex(value.field("0"));
    let mut fields: Vec<String> = match name {
        "Dma" => {
            let of = |name: &str| parts[0].field(name);
            let direction = if of("direction").variant().0 == "Read" { "r" } else { "w" };
            let [requester, length, data] =
                ["requester", "length", "data"].map(|name| hex(of(name)));
            vec![requester, direction.to_string(), address(of("address")), length, data]
        }
        "Load" | "Store" => vec![address(&parts[0]), hex(&parts[1])],
        "Error" | "End" => vec![hex(&parts[0])],
        "Clear" => vec![hex(&parts[0]), parts[1].variant().0.to_lowercase()],
        "Priority" => vec![hex(&parts[0]), hex(&parts[1])],
        "Fatal" | "FenceClear" => return Err(NO_SUCH_LINE),
        "Unnamed" => return Err(NO_NAME),
        _ => panic!("a request of another kind: {name}"),
    };
    let word = if name == "Priority" { "prio".to_string() } else { name.to_lowercase() };
    fields.insert(0, word);
    Ok(fields)
}

/// A request as the plain bridge has it. Words that name no request have no form there.
fn plain_request(request: &Value) -> Option<Request> {
    match request.variant() {
        ("Fatal", parts) => Some(Request::Fatal { requester: parts[0].word() }),
        ("FenceClear", _) => Some(Request::FenceClear),
        _ => {
            let line = request_fields(request).ok()?.join("\t");
            let Some(Line::Ask(request)) = replay::parse(line.as_bytes()) else {
                panic!("no request: {line}")
            };
            Some(request)
        }
    }
}

/// N, M, R and the length of memory.
fn sizes_of(sizes: &Value, memory: u64) -> [u64; 4] {
    let of = |name: &str| sizes.field(name).word();
    [of("pes"), of("interrupts"), of("requesters"), memory]
}

fn in_text(sizes: [u64; 4]) -> bool {
    sizes[0] >= 1 && sizes[2] >= 1 && sizes.iter().zip(MOST).all(|(&size, most)| size <= most)
}

/// A row of a request, or why the text cannot say it.
fn case(out: &mut Output, names: &Modules, case: &Value) -> Result<(), &'static str> {
    let request = request_fields(case.field("request"))?;
    let tables = case.field("tables");
    let memory = case.field("memory").words();
    let sizes = sizes_of(tables.field("sizes"), memory.len() as u64);
    if reason_1(case) {
        out.line(&request);
        write_answer(out, names, case.field("answer"));
        return Ok(());
    }
    if !in_text(sizes) {
        return Err(TOO_LARGE);
    }
    if tables.field("installed").word() != INSTALLED {
        return Err(NO_SUCH_SIZE);
    }
    let live = case.field("live");
    out.size(sizes);
    out.set_all(REQUESTERS, &tables.field("requesters").words());
    out.set_all(TRANSLATION, &tables.field("entries").words());
    out.set_all(MEMORY, &memory);
    out.set_all(PEERS, &tables.field("peers").words());
    out.set_all(INTERRUPTS, &live.field("interrupts").words());
    out.set_all(WINDOWS, &tables.field("windows").words());
    out.set_all(SEGMENTS, &tables.field("segments").words());
    out.set_all(STATE, &live.field("state").words());
    out.line(&request);
    write_answer(out, names, case.field("answer"));
    let left = case.field("left");
    let state = left.field("state").words();
    let (of_pes, fence) = state.split_at(fence_place(sizes[0]));
    show_fence(out, of_pes.len(), fence[0]);
    show_stop_bits(out, of_pes);
    show_interrupts(out, &left.field("interrupts").words());
    Ok(())
}

fn reason_1(case: &Value) -> bool {
    let (name, parts) = case.field("answer").variant();
    name == "Refuse" && parts[0].variant().0 == "TableLength"
}

/// The paper's numbers of an answer.
fn numbered(names: &Modules, answer: &Value) -> Value {
    names.apply(names.value(ANSWER, "numbered"), answer.clone())
}

/// Whether the plain bridge does what a row of a request says, where the request has a form there.
fn plain_agrees(names: &Modules, case: &Value) -> Option<bool> {
    let request = plain_request(case.field("request"))?;
    let [tables, live, left] = ["tables", "live", "left"].map(|name| case.field(name));
    let [n, m, r, _] = sizes_of(tables.field("sizes"), 0);
    let narrow = |name: &str| {
        let words = tables.field(name).words().into_iter();
        words.map(|word| u16::try_from(word).expect("wider than its table")).collect()
    };
    let mut plain = Bridge {
        n,
        m,
        r,
        installed: tables.field("installed").word(),
        requesters: narrow("requesters"),
        translation: tables.field("entries").words(),
        memory: case.field("memory").words(),
        peers: tables.field("peers").words(),
        interrupts: live.field("interrupts").words(),
        windows: tables.field("windows").words(),
        segments: narrow("segments"),
        state: live.field("state").words(),
    };
    let numbers = numbered(names, case.field("answer"));
    let places = ["name", "reason", "value", "words", "pe", "server", "priority", "word"];
    let wanted = places.map(|name| numbers.field(name).word());
    Some(
        answer_words(plain.handle(request)) == wanted
            && plain.state == left.field("state").words()
            && plain.interrupts == left.field("interrupts").words(),
    )
}

/// The answer's line, by the paper's numbers of it.
fn write_answer(out: &mut Output, names: &Modules, answer: &Value) {
    let numbers = numbered(names, answer);
    let of = |name: &str| numbers.field(name).word();
    let name = ["pass", "msi", "held", "ones", "drop", "refuse", "done"][of("name") as usize];
    out.answer(name, of("reason"), of("value"), of("words"));
}

/// An error message of a requester that no table has: 18 or 3. A fence is then cleared.
fn show_fence(out: &mut Output, place: usize, word: u64) {
    out.line(&["error", "ffffffffffffffff"]);
    if word & FENCE == 0 {
        return out.refuse(3);
    }
    out.refuse(18);
    out.set(STATE, place, word & !FENCE);
}

/// A DMA by bypass and a load by M32, of each PE: 4 or a pass, 11 or a pass.
fn show_stop_bits(out: &mut Output, of_pes: &[u64]) {
    for (index, word) in [0, 0x100000, 0].into_iter().enumerate() {
        out.set(WINDOWS, index, word);
    }
    for (pe, words) in of_pes.chunks(STATE_WORDS).enumerate() {
        out.set(REQUESTERS, 0, pe as u64);
        for (index, word) in [0, 1, 1, 0].into_iter().enumerate() {
            out.set(TRANSLATION, 8 * pe + index, word);
        }
        out.line(&["dma", "0", "r", "0", "1", "0"]);
        match words[0] & 2 {
            0 => out.answer("pass", 0, 0, 0),
            _ => out.refuse(4),
        }
        out.set(SEGMENTS, 0, pe as u64);
        out.line(&["load", "0", "1"]);
        match words[0] & 1 {
            0 => out.answer("pass", 0, 0, 0),
            _ => out.answer("ones", 11, 0xFF, 0),
        }
    }
}

/// A priority set from 255 to 0, which clears Q and presents or holds where Q is set; then an MSI,
/// which is held where P is set.
fn show_interrupts(out: &mut Output, interrupts: &[u64]) {
    for (number, words) in interrupts.chunks(4).enumerate() {
        if words.iter().all(|&word| word == 0) {
            continue;
        }
        out.set(REQUESTERS, 0, 0);
        out.set(STATE, 0, 0);
        for (index, word) in [0, 0, 255].into_iter().enumerate() {
            out.set(INTERRUPTS, 4 * number + index, word);
        }
        out.line(&["prio", &format!("{number:x}"), "0"]);
        out.line(&["dma", "0", "w", &format!("{:x}", 1 << 60 | number << 4), "4", "0"]);
        let number = number as u64;
        match words[3] {
            0 => {
                out.answer("done", 0, 0, 0);
                out.answer("msi", 0, number, 0);
            }
            1 => {
                out.answer("msi", 0, number, 0);
                out.answer("held", 0, number, 0);
            }
            2 => {
                out.answer("done", 0, 0, 0);
                out.answer("held", 0, number, 0);
            }
            3 => {
                out.answer("held", 0, number, 0);
                out.answer("held", 0, number, 0);
            }
            _ => {
                out.refuse(14);
                out.refuse(9);
            }
        }
    }
}

/// A row of a limit, or why the text cannot say it: `sized` of sizes and lengths, `walkable` of an
/// entry, or `formed` of a request.
fn limit(out: &mut Output, limit: &Value) -> Result<(), &'static str> {
    let good = limit.field("good").variant().0 == "true";
    match limit.field("gives").variant() {
        ("sized", [sizes, lengths]) => sized(out, sizes, lengths, good),
        ("formed", [request]) => formed(out, request, good),
        ("walkable", _) => Err(NO_REQUEST),
        (name, _) => panic!("a limit of another test: {name}"),
    }
}

fn sized(out: &mut Output, sizes: &Value, lengths: &Value, good: bool) -> Result<(), &'static str> {
    let sizes = sizes_of(sizes, lengths.field("memory").word());
    if !good {
        return Err(NO_SUCH_TABLE);
    }
    if !in_text(sizes) {
        return Err(TOO_LARGE);
    }
    out.size(sizes);
    for (table, field) in [
        (REQUESTERS, "requesters"),
        (TRANSLATION, "entries"),
        (MEMORY, "memory"),
        (PEERS, "peers"),
        (INTERRUPTS, "interrupts"),
        (WINDOWS, "windows"),
        (SEGMENTS, "segments"),
        (STATE, "state"),
    ] {
        let length = lengths.field(field).word() as usize;
        if length > 0 {
            // In the last word of the state, bit 0 is the fence.
            out.set(table, length - 1, 2);
        }
        out.set(table, length, 1);
        out.answer("bad", 0, 0, 0);
    }
    out.line(&["error", "ffffffffffffffff"]);
    out.refuse(3);
    Ok(())
}

/// On a bridge that serves all that is well formed: requester 5 is PE 2, whose records are both a
/// bypass of all offsets; M32 is at 0 and M64 window 0 ends at 2^64; interrupt 7 is PE 2's.
fn formed(out: &mut Output, request: &Value, good: bool) -> Result<(), &'static str> {
    let line = request_fields(request)?;
    out.size([4, 8, 8, 0]);
    out.set(REQUESTERS, 5, 2);
    for record in [16, 20] {
        out.set(TRANSLATION, record + 1, 1 << 35);
        out.set(TRANSLATION, record + 2, 1);
    }
    out.set(INTERRUPTS, 28, 2);
    out.set_all(WINDOWS, &[0, 0x100000, 0, 0xFFFC_0000_0000_0000, 1 << 50, 1, 2]);
    out.set(SEGMENTS, 0, 2);
    out.line(&line);
    if !good {
        out.refuse(2);
        return Ok(());
    }
    let (name, parts) = request.variant();
    match name {
        "Dma" => {
            let address = parts[0].field("address").field("0").word();
            let offset = address & ((1 << 59) - 1);
            assert!(!(0xFFFF_0000..=0xFFFF_FFFF).contains(&address), "an MSI");
            match address >> 60 {
                0 if offset + parts[0].field("length").word() > INSTALLED => out.refuse(17),
                0 => out.answer("pass", 0, offset, 0),
                1 => panic!("an MSI"),
                _ => out.refuse(5),
            }
        }
        "Load" | "Store" => out.answer("pass", 0, parts[0].field("0").word(), 0),
        "Priority" => {
            assert!(parts[0].word() == 7, "another interrupt");
            out.answer("done", 0, 0, 0);
        }
        "Error" => {
            assert!(parts[0].word() >= 8, "a requester of the bridge");
            out.refuse(3);
        }
        _ => {
            assert!(parts[0].word() >= 8, "a PE or an interrupt of the bridge");
            out.refuse(14);
        }
    }
    Ok(())
}

// ---- All rows ----

fn main() {
    let arguments: Vec<String> = env::args().skip(1).collect();
    let [crates, folder] = &arguments[..] else { panic!("usage: rows CRATES FOLDER") };
    let tables = [(CASES, "cases"), (REASONS, "reasons"), (LIMITS, "limits")];
    let roots = [CASES, REASONS, LIMITS, ANSWER, NUMBER];
    let names = Modules::read(Path::new(crates), &roots, |name| {
        name.ends_with("Case") || name.ends_with("Cases")
    });

    let [first, second, limits] = tables.map(|(module, name)| names.value(module, name));
    let requests = || first.list().iter().chain(second.list());
    let (before, after): (Vec<&Value>, Vec<&Value>) = requests().partition(|row| reason_1(row));

    let mut out = Output::default();
    let mut unsaid = Vec::new();
    let (mut said, mut early) = (0, 0);
    let mut by_plain = [0; 2];
    for row in before.iter().chain(&after).copied().chain(limits.list()) {
        out.row = row.record().row.clone().expect("a row of a list");
        let is_limit = row.record().has("gives");
        if let Some(agrees) = (!is_limit).then(|| plain_agrees(&names, row)).flatten() {
            by_plain[usize::from(agrees)] += 1;
            if !agrees {
                println!("the plain bridge does otherwise than {}", out.row);
            }
        }
        let done = if is_limit { limit(&mut out, row) } else { case(&mut out, &names, row) };
        match done {
            Ok(()) => {
                said += 1;
                early += usize::from(!is_limit && reason_1(row));
            }
            Err(why) => unsaid.push(format!("{}: {why}", out.row)),
        }
    }

    let write = |name: &str, text: String| {
        let path = Path::new(folder).join(name);
        fs::write(&path, text).unwrap_or_else(|error| panic!("{}: {error}", path.display()));
    };
    let lines = |lines: &[String]| lines.iter().map(|line| format!("{line}\n")).collect::<String>();
    write("rows.txt", out.text.clone());
    write("rows.out", format!("n\tanswer\treason\tvalue\twords\n{}", lines(&out.answers)));
    write("rows.lines", lines(&out.rows));
    write("rows.unsaid", lines(&unsaid));
    println!(
        "{} rows of cases A to J, {} of the second table, {} of limits: {} as text ({} of them before the first size line), {} that the text cannot say; {} asked of the plain bridge itself",
        first.list().len(),
        second.list().len(),
        limits.list().len(),
        said,
        early,
        unsaid.len(),
        by_plain[0] + by_plain[1]
    );
    exit(i32::from(by_plain[0] > 0));
}
