// The plain bridge and the proved one on the same work: request words in, answer words out.
//
//     bench [WORK [BATCHES [REPETITIONS]]]
//     bench list
//
// Runs every work, or the named one, and prints a line to each: its name, the requests of one
// repetition, nanoseconds to a request by the plain bridge on values, by the plain bridge on words
// and by the proved one, and the ratio of the last two. `list` prints the works and the requests
// of one batch of each; after those that a base without the fence cannot serve `fence`, after those
// of the bridge with a cache `cache`.
//
// Works that compare a hit with its walk come last, marked `walk`: the three are the plain bridge with
// a cache, the proved one without a cache, which walks, and the proved one with a cache, on the same
// DMAs. Their ratio is that of hit to walk.
//
// Compiled with `--cfg base` it has the proved code of another commit too: the three are the plain
// bridge on words, the base and the new code. The base has to take the arguments of
// `host/celltimber.rs`, with the same words in tables, requests and answers; it may lack the
// installed size, under which no work is refused. Of a PE's state it may lack the last words: it
// then knows no word that a walk stopped at, and what it lacks is not compared. It may lack the
// fence, with its word and its requests: it is then not given the word, and works that are about the
// fence are not for it. It may lack the cache: works with a cache are then not for it. Works that
// compare a hit with its walk are about the new code alone, and are left out.
//
// The requests come in batches. All three serve a batch before the next one is made. They take
// turns at being first, and at each of the three copies of the tables. Answers and words are
// compared after each batch, outside the time. On a difference it prints one line that names the
// request, and exits with 1.

#[path = "../plain/bridge.rs"]
#[allow(dead_code)]
mod bridge;
#[path = "../plain/cache.rs"]
#[allow(dead_code)]
mod cache;
#[path = "../tests/cache_words.rs"]
#[allow(dead_code)]
mod cache_words;
#[path = "../host/celltimber.rs"]
#[allow(dead_code)]
mod celltimber;
#[path = "../tests/plain_words.rs"]
#[allow(dead_code)]
mod plain_words;
#[path = "../tests/random.rs"]
#[allow(dead_code)]
mod random;

/// The functions of the base. `bench/run` writes these files: the base's own `host/celltimber.rs`, with
/// the symbols of the base, and the calls of `tests/plain_words.rs` and `tests/cache_words.rs` with the
/// arguments of the base.
#[cfg(base)]
#[allow(dead_code)]
mod base {
    use super::bridge;
    pub mod celltimber {
        include!("../target/bench/base/celltimber.rs");
    }
    pub mod plain_words {
        include!("../target/bench/base/plain_words.rs");
    }
    pub mod cache_words {
        include!("../target/bench/base/cache_words.rs");
    }
}

use bridge::{Answer, Bridge, Name, Request};
use cache::{Cached, Operation};
use cache_words::{operation_of, request_of, run_cached};
use celltimber::*;
use plain_words::{answer_words, run_proved};
use random::Random;
use std::process::exit;
use std::time::Instant;

/// Stands in answer words before a call.
const UNWRITTEN: u64 = 0x5555_AAAA_5555_AAAA;

/// Stands in answers before a call.
const NO_ANSWER: Answer = Answer {
    name: Name::Refuse,
    reason: UNWRITTEN,
    value: UNWRITTEN,
    words: UNWRITTEN,
    word: UNWRITTEN,
    pe: None,
    server: None,
    priority: None,
};

/// Repetitions of each work, if the command names no other number.
const REPETITIONS: usize = 7;

// ---- The plain bridge, from words to words ----

/// Each request has an answer by `handle`.
fn answer_all(
    requests: &[u64],
    answers: &mut [u64],
    mut handle: impl FnMut(&[u64]) -> Answer,
) -> usize {
    let asked = requests.chunks_exact(REQUEST_WORDS);
    let room = answers.chunks_exact_mut(ANSWER_WORDS);
    let mut count = 0;
    for (request, answer) in asked.zip(room) {
        answer.copy_from_slice(&answer_words(handle(request)));
        count += 1;
    }
    count
}

fn run_plain(bridge: &mut Cached, requests: &[u64], answers: &mut [u64]) -> usize {
    answer_all(requests, answers, |words| bridge.tables.handle(request_of(words)))
}

fn run_plain_cached(bridge: &mut Cached, requests: &[u64], answers: &mut [u64]) -> usize {
    answer_all(requests, answers, |words| bridge.handle(operation_of(words)))
}

// ---- Work ----

/// Requests on tables. Every bridge serves each batch.
struct Work {
    name: &'static str,
    /// The tables of each bridge at the start.
    tables: Bridge,
    /// The words of its cache; none where the work is without a cache.
    cache: Vec<u64>,
    bridges: usize,
    /// Batches of one repetition.
    batches: usize,
    /// Requests to a call; a batch that has fewer is one call.
    to_a_call: usize,
    /// The requests of the next batch.
    batch: Box<dyn Fn(&mut Random) -> Vec<RequestWords>>,
    /// Served before each batch, outside the time.
    before: Vec<RequestWords>,
    /// Whether an answer in a batch is one that the work is about.
    wanted: Box<dyn Fn(&AnswerWords) -> bool>,
    about: About,
}

/// What a base has to know to serve a work, and what of the cache an operation changes.
#[derive(Clone, Copy, PartialEq)]
enum About {
    Bridge,
    Fence,
    /// A hit: no operation of a batch changes the cache.
    Hits,
    /// A miss: each operation of a batch changes the cache.
    Misses,
    /// Edits and invalidates.
    Drops,
    /// Hits, with a walk in the place of the plain bridge.
    HitsAndWalks,
}

impl About {
    fn is_cached(self) -> bool {
        !matches!(self, About::Bridge | About::Fence)
    }

    fn programs(self) -> &'static [Program; 3] {
        match self {
            About::Bridge | About::Fence => &PROGRAMS,
            About::HitsAndWalks => &WALKS,
            About::Hits | About::Misses | About::Drops => &CACHED,
        }
    }

    /// The mark of a work in the list.
    fn mark(self) -> &'static str {
        match self {
            About::Bridge => "",
            About::Fence => " fence",
            About::HitsAndWalks => " walk",
            About::Hits | About::Misses | About::Drops => " cache",
        }
    }
}

/// The requests of a batch in one call.
const ALL: usize = usize::MAX / REQUEST_WORDS;

fn works() -> Vec<Work> {
    let mut works = vec![
        refused_work("unknown-requester"),
        Work { to_a_call: 1, ..refused_work("unknown-one-a-call") },
        dma_work("dma-1-level", 1, 2),
        dma_work("dma-2-level", 2, 2),
        dma_work("dma-3-level", 3, 2),
        dma_work("dma-1-level-reads", 1, 1),
        dma_work("dma-2-level-reads", 2, 1),
        dma_work("dma-3-level-reads", 3, 1),
        dma_work("dma-bypass", 0, 2),
        Work { to_a_call: 1, ..dma_work("dma-1-one-a-call", 1, 2) },
        load_work("load-others-empty", [0, 0, 0], [0, 0, 0, 0]),
        load_work("load-others-elsewhere", [0, 1 << 32, 0], [1 << 40, WINDOW_SIZE, 1, 0]),
        load_work("load-others-mode-0", [WINDOW_15, 1 << 32, 1], [WINDOW_15, WINDOW_SIZE, 0, 0]),
        msi_work("msi-and-end"),
        Work {
            name: "freeze-256",
            tables: peer_tables(),
            cache: Vec::new(),
            bridges: 10,
            batches: 1_000,
            to_a_call: ALL,
            batch: Box::new(|random| vec![error(random.below(256))]),
            before: clears(0..256),
            wanted: Box::new(|answer| answer[0] == DONE),
            about: About::Bridge,
        },
        freeze_alone_work("freeze-alone-16", 16),
        freeze_alone_work("freeze-alone-256", 256),
        Work {
            name: "clear",
            tables: peer_tables(),
            cache: Vec::new(),
            bridges: 1,
            batches: 1_000,
            to_a_call: ALL,
            batch: Box::new(|_| clears(0..256)),
            before: vec![error(0)],
            wanted: Box::new(|answer| answer[0] == DONE),
            about: About::Bridge,
        },
        fence_work("fatal-and-clear"),
        fenced_work("fenced-dma"),
        hit_work("hit-1-level", 1),
        hit_work("hit-2-level", 2),
        hit_work("hit-3-level", 3),
        Work { to_a_call: 1, ..hit_work("hit-1-one-a-call", 1) },
        miss_work("miss-1-level", 1),
        miss_work("miss-2-level", 2),
        miss_work("miss-3-level", 3),
        edit_work("edit-1-level", 1),
        edit_work("edit-3-level", 3),
        Work { before: vec![invalidate_all()], ..edit_work("edit-empty-cache", 3) },
        drop_work("invalidate-all", |_| vec![invalidate_all()]),
        drop_work("invalidate-pe", |_| (0..PES).map(invalidate_pe).collect()),
        drop_work("invalidate-address", |random| {
            let one = |_| {
                let (pe, address, _) = page_in(3, random.below(SLOTS));
                invalidate_address(pe, address)
            };
            (0..64).map(one).collect()
        }),
    ];
    if !cfg!(base) {
        let names = ["hit-1-to-walk", "hit-2-to-walk", "hit-3-to-walk"];
        works.extend(
            names.into_iter().zip(1..).map(|(name, levels)| Work {
                about: About::HitsAndWalks,
                ..hit_work(name, levels)
            }),
        );
    }
    works
}

/// Error messages of requesters that no table has.
fn refused_work(name: &'static str) -> Work {
    Work {
        name,
        tables: Bridge::new(PES, 0, REQUESTERS, INSTALLED, 0),
        cache: Vec::new(),
        bridges: 1,
        batches: 1_000,
        to_a_call: ALL,
        batch: Box::new(|random| thousand(|| error(REQUESTERS + random.below(REQUESTERS)))),
        before: Vec::new(),
        wanted: Box::new(|answer| answer[0] == REFUSE && answer[1] == 3),
        about: About::Bridge,
    }
}

fn thousand(request: impl FnMut() -> RequestWords) -> Vec<RequestWords> {
    std::iter::repeat_with(request).take(1_000).collect()
}

// ---- DMA ----

/// PEs and requesters where a work does not ask for more; requester k is of PE k mod 4.
const PES: u64 = 4;
const REQUESTERS: u64 = 64;

/// The installed size, 4 GiB. No DMA goes above it.
const INSTALLED: u64 = 1 << 32;

/// Words of a table of code 1, and the tables at each level below the first.
const TABLE_WORDS: u64 = 512;
const LOWER_TABLES: u64 = 2;

/// With no level it is a bypass. The directions are 1, reads alone, or 2.
fn dma_work(name: &'static str, levels: u64, directions: u64) -> Work {
    Work {
        name,
        tables: if levels == 0 { bypass_tables() } else { dma_tables(levels) },
        cache: Vec::new(),
        bridges: 1,
        batches: 1_000,
        to_a_call: ALL,
        batch: Box::new(move |random| thousand(|| passing_dma(random, levels, directions))),
        before: Vec::new(),
        wanted: Box::new(move |answer| answer[0] == PASS && answer[3] == levels),
        about: About::Bridge,
    }
}

/// Two records to each PE, of 4 KiB and of 64 KiB pages, each with tables of its own.
fn dma_tables(levels: u64) -> Bridge {
    let mut random = Random(levels);
    let tables_of_record = 1 + (levels - 1) * LOWER_TABLES;
    let memory_words = 2 * PES * tables_of_record * TABLE_WORDS;
    let mut t = Bridge::new(PES, 0, REQUESTERS, INSTALLED, memory_words);
    for (k, pe) in t.requesters.iter_mut().enumerate() {
        *pe = k as u16 % PES as u16;
    }
    for record in 0..2 * PES {
        let first = record * tables_of_record;
        let page_code = if record % 2 == 0 { 1 } else { 5 };
        let entry = [8 * TABLE_WORDS * first, levels, 1, page_code];
        t.translation[4 * record as usize..][..4].copy_from_slice(&entry);
        for table in 0..tables_of_record {
            // The first of the tables one level lower.
            let lower = first + 1 + (table + LOWER_TABLES - 1) / LOWER_TABLES * LOWER_TABLES;
            let last = lower >= first + tables_of_record;
            for word in 0..TABLE_WORDS {
                let next = lower + random.below(LOWER_TABLES);
                let high = match last {
                    true => random.below(INSTALLED) & !0xFFF,
                    false => 8 * TABLE_WORDS * next,
                };
                let low = random.below(0x400) << 2 | if last { 3 } else { 1 + random.below(3) };
                t.memory[((first + table) * TABLE_WORDS + word) as usize] = high | low;
            }
        }
    }
    t
}

/// Two records to each PE, both a bypass of all that is installed.
fn bypass_tables() -> Bridge {
    let mut t = Bridge::new(PES, 0, REQUESTERS, INSTALLED, 0);
    for (k, pe) in t.requesters.iter_mut().enumerate() {
        *pe = k as u16 % PES as u16;
    }
    for record in t.translation.chunks_mut(4) {
        record.copy_from_slice(&[0, INSTALLED >> 24, 1, 0]);
    }
    t
}

/// A DMA of the DMA class that any entry of these tables passes.
fn passing_dma(random: &mut Random, levels: u64, directions: u64) -> RequestWords {
    let second = random.below(2);
    let page_bits = if second == 0 { 12 } else { 16 };
    let reach = if levels == 0 { INSTALLED } else { 1 << (page_bits + 9 * levels) };
    let address = second << 59 | random.below(reach);
    if address >> 16 == 0xFFFF {
        return passing_dma(random, levels, directions);
    }
    let direction = random.below(directions);
    let length = 1 + random.below(4_096 - address % 4_096);
    dma(random.below(REQUESTERS), direction, address, length, random.below(1 << 32))
}

// ---- Loads ----

/// M64 window 15: 2^40 bytes, its 256 segments to 256 PEs.
const WINDOW_15: u64 = 3 << 40;
const WINDOW_SIZE: u64 = 1 << 40;

/// Every window but M64 15 is closed or elsewhere, and has these words.
fn load_work(name: &'static str, m32: [u64; 3], m64: [u64; 4]) -> Work {
    let mut tables = Bridge::new(256, 0, REQUESTERS, INSTALLED, 0);
    tables.windows[..3].copy_from_slice(&m32);
    for window in tables.windows[3..].chunks_mut(4) {
        window.copy_from_slice(&m64);
    }
    tables.windows[63..].copy_from_slice(&[WINDOW_15, WINDOW_SIZE, 2, 0]);
    Work {
        name,
        tables,
        cache: Vec::new(),
        bridges: 1,
        batches: 1_000,
        to_a_call: ALL,
        batch: Box::new(|random| {
            thousand(|| {
                let width = 1 << random.below(4);
                load(WINDOW_15 + random.below(WINDOW_SIZE) / width * width, width)
            })
        }),
        before: Vec::new(),
        wanted: Box::new(|answer| answer[0] == PASS),
        about: About::Bridge,
    }
}

// ---- MSI ----

const INTERRUPTS: u64 = 256;

/// Each MSI is presented, and ended by the request after it.
fn msi_work(name: &'static str) -> Work {
    Work {
        name,
        tables: interrupt_tables(),
        cache: Vec::new(),
        bridges: 1,
        batches: 1_000,
        to_a_call: ALL,
        batch: Box::new(|random| {
            let both = |_| {
                let number = random.below(INTERRUPTS);
                [msi(random, number), end(number)]
            };
            (0..1_000).flat_map(both).collect()
        }),
        before: Vec::new(),
        wanted: Box::new(|answer| answer[0] == MSI || answer[0] == DONE),
        about: About::Bridge,
    }
}

/// Interrupt k is of PE k mod 4, as requester k is.
fn interrupt_tables() -> Bridge {
    let mut random = Random(0);
    let mut t = Bridge::new(PES, INTERRUPTS, REQUESTERS, INSTALLED, 0);
    for (k, pe) in t.requesters.iter_mut().enumerate() {
        *pe = k as u16 % PES as u16;
    }
    for (k, interrupt) in t.interrupts.chunks_mut(4).enumerate() {
        let pe = k as u64 % PES;
        interrupt.copy_from_slice(&[pe, random.below(1 << 24), random.below(255), 0]);
    }
    t
}

/// An MSI in one of the two windows; its low five bits are in the data.
fn msi(random: &mut Random, number: u64) -> RequestWords {
    let window = if random.below(2) == 0 { 0xFFFF_0000 } else { 1 << 60 };
    let requester = random.below(REQUESTERS / PES) * PES + number % PES;
    dma(requester, WRITE, window | number >> 5 << 9, 4, number & 31)
}

// ---- Freeze and release ----

/// 256 PEs and a requester of each; every peer vector names all PEs.
fn peer_tables() -> Bridge {
    let mut t = Bridge::new(256, 0, 256, INSTALLED, 0);
    for (k, pe) in t.requesters.iter_mut().enumerate() {
        *pe = k as u16;
    }
    t.peers.fill(u64::MAX);
    t
}

/// A DMA of each of 16 PEs among `pes`; its class is not served. No PE has peers: a bridge on which
/// a refusal stops peers leaves the same words.
fn freeze_alone_work(name: &'static str, pes: u64) -> Work {
    let mut tables = Bridge::new(pes, 0, pes, INSTALLED, 0);
    for (k, pe) in tables.requesters.iter_mut().enumerate() {
        *pe = k as u16;
    }
    let frozen = move || (0..16).map(move |k| k * (pes / 16));
    Work {
        name,
        tables,
        cache: Vec::new(),
        bridges: 4,
        batches: 1_000,
        to_a_call: ALL,
        batch: Box::new(move |random| {
            let refused = |pe| dma(pe, READ, 2 << 60 | random.below(1 << 40) * 4_096, 1, 0);
            frozen().map(refused).collect()
        }),
        before: clears(frozen()),
        wanted: Box::new(|answer| answer[1] == 5),
        about: About::Bridge,
    }
}

/// Each of these PEs released: both stop bits and the error record.
fn clears(pes: impl Iterator<Item = u64>) -> Vec<RequestWords> {
    let of_pe = |pe| [clear(pe, MMIO_BIT), clear(pe, DMA_BIT), clear(pe, RECORD)];
    pes.flat_map(of_pe).collect()
}

// ---- The fence ----

/// A fatal message sets the fence, and the request after it clears it.
fn fence_work(name: &'static str) -> Work {
    Work {
        batch: Box::new(|random| {
            let both = |_| [fatal(random.below(REQUESTERS)), fence_clear()];
            (0..1_000).flat_map(both).collect()
        }),
        wanted: Box::new(|answer| answer[0] == DONE),
        about: About::Fence,
        ..refused_work(name)
    }
}

/// DMAs of one level, on a bridge that is fenced.
fn fenced_work(name: &'static str) -> Work {
    let mut work = dma_work(name, 1, 2);
    if let Some(word) = work.tables.state.last_mut() {
        *word = FENCE;
    }
    Work { wanted: Box::new(|answer| answer[1] == REASON_FENCED), about: About::Fence, ..work }
}

// ---- The cache ----

const SLOTS: u64 = (CACHE_WORDS / SLOT_WORDS) as u64;

/// A page of a record of `dma_tables`: its PE, its first address, and the bits of a page. None if its
/// addresses are those of MSIs.
fn page_of(record: u64, page: u64) -> Option<(u64, u64, u64)> {
    let (half, bits) = if record % 2 == 0 { (0, 12) } else { (1, 16) };
    let address = half << 59 | page << bits;
    (address >> 16 != 0xFFFF).then_some((record / 2, address, bits))
}

/// The page that a slot holds in a full cache.
fn page_in(levels: u64, slot: u64) -> (u64, u64, u64) {
    let mut random = Random(slot);
    let record = slot / 32;
    let low = slot.wrapping_sub(37 * record) % SLOTS;
    loop {
        let page = random.below(1 << (9 * levels)) / SLOTS * SLOTS + low;
        if let Some(page) = page_of(record, page) {
            return page;
        }
    }
}

/// A DMA to any bytes of a page.
fn dma_to(random: &mut Random, (pe, address, bits): (u64, u64, u64)) -> RequestWords {
    let requester = random.below(REQUESTERS / PES) * PES + pe;
    let address = address | random.below(1 << bits);
    let length = 1 + random.below(4_096 - address % 4_096);
    dma(requester, random.below(2), address, length, 0)
}

/// DMAs that fill each slot.
fn fills(levels: u64) -> Vec<RequestWords> {
    let mut random = Random(1);
    (0..SLOTS).map(|slot| dma_to(&mut random, page_in(levels, slot))).collect()
}

/// DMAs to the 256 pages of a full cache.
fn hit_work(name: &'static str, levels: u64) -> Work {
    let work = dma_work(name, levels, 2);
    let mut bridge = Cached { tables: work.tables, cache: vec![0; CACHE_WORDS] };
    for words in fills(levels) {
        bridge.handle(operation_of(&words));
    }
    Work {
        tables: bridge.tables,
        cache: bridge.cache,
        batch: Box::new(move |random| {
            thousand(|| {
                let slot = random.below(SLOTS);
                dma_to(random, page_in(levels, slot))
            })
        }),
        about: About::Hits,
        ..work
    }
}

/// DMAs to two pages of one slot by turns: bit 8 of the page is clear in the first, and the second is in
/// the slot when the next two come.
fn miss_work(name: &'static str, levels: u64) -> Work {
    Work {
        cache: vec![0; CACHE_WORDS],
        batch: Box::new(move |random| {
            let mut all = Vec::new();
            while all.len() < 1_000 {
                let record = random.below(2 * PES);
                let page = random.below(1 << (9 * levels)) & !SLOTS;
                let both = (page_of(record, page), page_of(record, page | SLOTS));
                if let (Some(first), Some(second)) = both {
                    all.extend([dma_to(random, first), dma_to(random, second)]);
                }
            }
            all
        }),
        about: About::Misses,
        ..dma_work(name, levels, 2)
    }
}

/// Edits of any memory words with the values that are there, on a cache that is full before each batch.
fn edit_work(name: &'static str, levels: u64) -> Work {
    let work = dma_work(name, levels, 2);
    let memory = work.tables.memory.clone();
    Work {
        cache: vec![0; CACHE_WORDS],
        batch: Box::new(move |random| {
            let one = |_| {
                let number = random.below(memory.len() as u64);
                edit(number, memory[number as usize])
            };
            (0..16).map(one).collect()
        }),
        before: fills(levels),
        wanted: Box::new(|answer| answer[0] == DONE),
        about: About::Drops,
        ..work
    }
}

/// Invalidates on a cache that is full before each batch, of pages with three levels.
fn drop_work(
    name: &'static str,
    batch: impl Fn(&mut Random) -> Vec<RequestWords> + 'static,
) -> Work {
    Work { bridges: 4, batch: Box::new(batch), ..edit_work(name, 3) }
}

// ---- The bridges side by side ----

/// Takes request words on a bridge to answer words, and returns how many requests it served.
type Run = fn(&mut Cached, &[u64], &mut [u64]) -> usize;

/// One of the programs that serve the same requests.
struct Program {
    name: &'static str,
    run: Run,
    /// What is timed.
    serve: fn(&mut Side, &mut Batch),
}

const NEW: &str = if cfg!(base) { "new" } else { "proved" };

#[cfg_attr(base, allow(dead_code))]
const VALUES: Program =
    Program { name: "values", run: run_plain, serve: |side, batch| serve_values(side, batch) };
const PLAIN: Program =
    Program { name: "plain", run: run_plain, serve: |side, batch| serve_plain(side, &batch.words) };
const PROVED: Program = Program {
    name: NEW,
    run: |bridge, requests, answers| run_proved(&mut bridge.tables, requests, answers),
    serve: |side, batch| serve_proved(side, &batch.words),
};
#[cfg(base)]
const BASE: Program = Program {
    name: "base",
    run: |bridge, requests, answers| {
        base::plain_words::run_proved(&mut bridge.tables, requests, answers)
    },
    serve: |side, batch| serve_base(side, &batch.words),
};

/// The same with a cache.
const PLAIN_CACHED: Program = Program { run: run_plain_cached, ..PLAIN };
#[cfg_attr(base, allow(dead_code))]
const VALUES_CACHED: Program = Program { run: run_plain_cached, ..VALUES };
const PROVED_CACHED: Program = Program {
    run: |bridge, requests, answers| {
        run_cached(&mut bridge.tables, &mut bridge.cache, 0, requests, answers)
    },
    ..PROVED
};
#[cfg(base)]
const BASE_CACHED: Program = Program {
    run: |bridge, requests, answers| {
        base::cache_words::run_cached(&mut bridge.tables, &mut bridge.cache, 0, requests, answers)
    },
    ..BASE
};

/// The ratio is that of the last to the one before it.
#[cfg(not(base))]
const PROGRAMS: [Program; 3] = [VALUES, PLAIN, PROVED];
#[cfg(base)]
const PROGRAMS: [Program; 3] = [PLAIN, BASE, PROVED];
#[cfg(not(base))]
const CACHED: [Program; 3] = [VALUES_CACHED, PLAIN_CACHED, PROVED_CACHED];
#[cfg(base)]
const CACHED: [Program; 3] = [PLAIN_CACHED, BASE_CACHED, PROVED_CACHED];
const WALKS: [Program; 3] = [
    PLAIN_CACHED,
    Program { name: "walk", serve: |side, batch| serve_walk(side, &batch.words), ..PROVED },
    PROVED_CACHED,
];

/// The words of a PE's state, and those after the words of all PEs: here, and in the base.
const STATE: [usize; 2] = [STATE_WORDS, FENCE_WORDS];
#[cfg(not(base))]
const BASE_STATE: [usize; 2] = STATE;
#[cfg(base)]
const BASE_STATE: [usize; 2] = [base::celltimber::STATE_WORDS, base::celltimber::FENCE_WORDS];

/// The requests of a batch as words and as values, with a cache as operations, and room for answers as
/// values.
struct Batch {
    words: Vec<u64>,
    requests: Vec<Request>,
    operations: Vec<Operation>,
    answers: Vec<Answer>,
}

/// The bridges of one side, the requests to a call, the answers of each, and how many were served.
#[derive(Clone)]
struct Side {
    bridges: Vec<Cached>,
    about: About,
    to_a_call: usize,
    answers: Vec<u64>,
    served: usize,
}

impl Side {
    fn new(work: &Work) -> Side {
        let bridge = Cached { tables: work.tables.clone(), cache: work.cache.clone() };
        Side {
            bridges: vec![bridge; work.bridges],
            about: work.about,
            to_a_call: work.to_a_call,
            answers: Vec::new(),
            served: 0,
        }
    }

    /// Room for the answers of every bridge to so many requests.
    fn clear_answers(&mut self, requests: usize) {
        self.answers.clear();
        self.answers.resize(ANSWER_WORDS * requests * self.bridges.len(), UNWRITTEN);
        self.served = 0;
    }

    /// Every bridge serves the requests.
    fn serve(&mut self, requests: &[u64], run: Run) {
        let room = self.answers.chunks_exact_mut(requests.len() / REQUEST_WORDS * ANSWER_WORDS);
        for (bridge, answers) in self.bridges.iter_mut().zip(room) {
            let calls = requests.chunks(self.to_a_call * REQUEST_WORDS);
            for (requests, answers) in calls.zip(answers.chunks_mut(self.to_a_call * ANSWER_WORDS))
            {
                self.served += run(bridge, requests, answers);
            }
        }
    }

    /// Whether answers and all words that can be written are the same.
    fn same(&self, other: &Side) -> bool {
        let same_words = |(a, b): (&Cached, &Cached)| {
            a.tables.state == b.tables.state
                && a.tables.interrupts == b.tables.interrupts
                && a.cache == b.cache
                && (self.about != About::Drops || a.tables.memory == b.tables.memory)
        };
        self.served == other.served
            && self.answers == other.answers
            && self.bridges.iter().zip(&other.bridges).all(same_words)
    }
}

// What is timed. Instructions are counted by the names of these functions.

#[inline(never)]
fn serve_values(side: &mut Side, batch: &mut Batch) {
    let count = batch.words.len() / REQUEST_WORDS;
    let room = batch.answers.chunks_exact_mut(count);
    for (bridge, answers) in side.bridges.iter_mut().zip(room) {
        for (request, answer) in batch.requests.iter().zip(&mut *answers) {
            *answer = bridge.tables.handle(*request);
        }
        for (operation, answer) in batch.operations.iter().zip(&mut *answers) {
            *answer = bridge.handle(*operation);
        }
        side.served += count;
    }
}

#[inline(never)]
fn serve_plain(side: &mut Side, requests: &[u64]) {
    side.serve(requests, if side.about.is_cached() { run_plain_cached } else { run_plain });
}

#[inline(never)]
fn serve_proved(side: &mut Side, requests: &[u64]) {
    side.serve(requests, if side.about.is_cached() { PROVED_CACHED.run } else { PROVED.run });
}

/// Without the cache, on a bridge that has one.
#[inline(never)]
fn serve_walk(side: &mut Side, requests: &[u64]) {
    side.serve(requests, PROVED.run);
}

#[cfg(base)]
#[inline(never)]
fn serve_base(side: &mut Side, requests: &[u64]) {
    side.serve(requests, if side.about.is_cached() { BASE_CACHED.run } else { BASE.run });
}

/// The orders in which the three programs serve, and the side of each: they take turns.
const ORDERS: [[usize; 3]; 6] = [[0, 1, 2], [1, 2, 0], [2, 0, 1], [2, 1, 0], [0, 2, 1], [1, 0, 2]];

fn side_of(program: usize, turn: usize) -> usize {
    (program + turn / ORDERS.len()) % 3
}

/// The same tables three times. They are equal between batches, so that any program can have any.
struct Sides([Side; 3]);

impl Sides {
    fn new(work: &Work) -> Sides {
        Sides(std::array::from_fn(|_| Side::new(work)))
    }

    /// All serve the same requests, in an order and on sides that `turn` picks.
    fn serve(&mut self, requests: &[RequestWords], turn: usize) -> Times {
        let all = requests.len() * self.0[0].bridges.len();
        let (about, words) = (self.0[0].about, || requests.iter());
        let without = words().filter(|_| !about.is_cached());
        let with = words().filter(|_| about.is_cached());
        let mut batch = Batch {
            words: requests.concat(),
            requests: without.map(|words| request_of(words)).collect(),
            operations: with.map(|words| operation_of(words)).collect(),
            answers: vec![NO_ANSWER; all],
        };
        for side in &mut self.0 {
            side.clear_answers(requests.len());
        }
        self.cut_state(turn);
        let mut times = [0.0; 3];
        for k in ORDERS[turn % ORDERS.len()] {
            let start = Instant::now();
            (about.programs()[k].serve)(&mut self.0[side_of(k, turn)], &mut batch);
            times[k] = start.elapsed().as_nanos() as f64 / all as f64;
        }
        self.fill_up(turn);
        // `serve_values` leaves no words.
        if about.programs()[0].name == "values" {
            self.0[side_of(0, turn)].answers =
                batch.answers.into_iter().flat_map(answer_words).collect();
        }
        let [first, second, third] = times;
        [first, second, third, third / second]
    }

    /// All serve the same requests, with no time taken.
    fn prepare(&mut self, requests: &[RequestWords], turn: usize) {
        let words = requests.concat();
        self.cut_state(turn);
        for k in ORDERS[turn % ORDERS.len()] {
            let side = &mut self.0[side_of(k, turn)];
            side.clear_answers(requests.len());
            side.serve(&words, side.about.programs()[k].run);
        }
        self.fill_up(turn);
    }

    /// Leaves out of the base's side the state words that the base lacks. All sides are written, so
    /// that the caches hold them alike.
    fn cut_state(&mut self, turn: usize) {
        if BASE_STATE == STATE {
            return;
        }
        for (k, [words, after]) in [STATE, BASE_STATE, STATE].into_iter().enumerate() {
            for Cached { tables, .. } in &mut self.0[side_of(k, turn)].bridges {
                let all = tables.state.clone();
                let (of_pes, fence) = all.split_at(all.len() - FENCE_WORDS);
                tables.state.clear();
                tables.state.extend(of_pes.chunks(STATE_WORDS).flat_map(|all| &all[..words]));
                tables.state.extend(&fence[..after]);
            }
        }
    }

    /// Puts in what the base lacks, as the plain bridge has it.
    fn fill_up(&mut self, turn: usize) {
        if BASE_STATE == STATE {
            return;
        }
        let [words, after] = BASE_STATE;
        let places = [side_of(0, turn), side_of(1, turn)];
        let [plain, base] = self.0.get_disjoint_mut(places).expect("two sides");
        for (plain, base) in plain.bridges.iter().zip(&mut base.bridges) {
            let (plain, base) = (&plain.tables, &mut base.tables);
            let served = base.state.clone();
            base.state.clone_from(&plain.state);
            let length = base.state.len() - FENCE_WORDS;
            let (of_pes, fence) = base.state.split_at_mut(length);
            let (served, served_fence) = served.split_at(served.len() - after);
            for (served, all) in served.chunks(words).zip(of_pes.chunks_mut(STATE_WORDS)) {
                all[..words].copy_from_slice(served);
            }
            fence[..after].copy_from_slice(served_fence);
        }
        let answers = plain.answers.chunks(ANSWER_WORDS);
        for (plain, base) in answers.zip(base.answers.chunks_mut(ANSWER_WORDS)) {
            if words < STATE_WORDS {
                base[AT_WORD] = plain[AT_WORD];
            }
        }
    }

    /// The state, the interrupts and the cache, which are the same on all sides between batches. Edits
    /// write what is there.
    fn written(&self) -> [Vec<u64>; 3] {
        let Cached { tables, cache } = &self.0[0].bridges[0];
        [tables.state.clone(), tables.interrupts.clone(), cache.clone()]
    }

    /// The difference that these requests made, from these state, interrupts and cache, if any.
    fn compare(
        &self,
        work: &Work,
        requests: &[RequestWords],
        [state, interrupts, cache]: [Vec<u64>; 3],
    ) -> Result<(), String> {
        let [first, others @ ..] = &self.0;
        if others.iter().all(|side| side.same(first)) {
            return Ok(());
        }
        let tables = Bridge { state, interrupts, ..work.tables.clone() };
        Err(difference(Cached { tables, cache }, work.about, requests))
    }
}

/// The first request that differs, all served one by one from this bridge. The first program is a
/// plain one.
fn difference(bridge: Cached, about: About, requests: &[RequestWords]) -> String {
    let side = Side { bridges: vec![bridge], about, to_a_call: 1, answers: Vec::new(), served: 0 };
    let mut sides = Sides([side.clone(), side.clone(), side]);
    for (k, request) in requests.iter().enumerate() {
        sides.prepare(&[*request], 0);
        let plain = &sides.0[0];
        for (program, side) in about.programs().iter().zip(&sides.0) {
            let same = side.bridges == plain.bridges;
            if side.answers != plain.answers || !same {
                return format!(
                    "request {} {:x?}: {} {:x?}, plain {:x?}, {} words left",
                    k + 1,
                    request,
                    program.name,
                    side.answers,
                    plain.answers,
                    if same { "the same" } else { "other" }
                );
            }
        }
    }
    "all requests in one call, none alone".to_string()
}

// ---- Time ----

/// Nanoseconds to a request by each program, and the ratio of the last two of them.
type Times = [f64; 4];

const RATIO: usize = 3;

/// One column of all, the least first.
fn sorted(all: &[Times], column: usize) -> Vec<f64> {
    let mut numbers: Vec<f64> = all.iter().map(|times| times[column]).collect();
    numbers.sort_by(f64::total_cmp);
    numbers
}

fn medians(all: &[Times]) -> Times {
    std::array::from_fn(|column| sorted(all, column)[all.len() / 2])
}

/// One repetition: the medians of its batches.
fn repetition(work: &Work, batches: usize, random: &mut Random) -> Result<Times, String> {
    let mut sides = Sides::new(work);
    let mut all = Vec::new();
    for batch in 0..batches {
        let told = |text| format!("{}, batch {}: {}", work.name, batch + 1, text);
        if !work.before.is_empty() {
            let written = sides.written();
            sides.prepare(&work.before, batch);
            sides.compare(work, &work.before, written).map_err(told)?;
        }
        let written = sides.written();
        let requests = (work.batch)(random);
        all.push(sides.serve(&requests, batch));
        sides.compare(work, &requests, written).map_err(told)?;
        for (k, answer) in sides.0[0].answers.chunks(ANSWER_WORDS).enumerate() {
            let k = k % requests.len();
            if !(work.wanted)(answer.try_into().unwrap()) {
                let text =
                    format!("request {} {:x?}: all answer {:x?}", k + 1, requests[k], answer);
                return Err(told(text + ", which is other work"));
            }
        }
    }
    // Every lent word, also of the tables that are not written.
    let [first, others @ ..] = &sides.0;
    if others.iter().any(|side| side.bridges != first.bridges) {
        return Err(format!("{}: a table that is not written differs", work.name));
    }
    Ok(medians(&all))
}

/// The operations of two batches do to the cache what the work is about, by the plain bridge.
fn check_cache(work: &Work) -> Result<(), String> {
    let wanted = match work.about {
        About::Hits | About::HitsAndWalks => false,
        About::Misses => true,
        About::Bridge | About::Fence | About::Drops => return Ok(()),
    };
    let mut bridge = Cached { tables: work.tables.clone(), cache: work.cache.clone() };
    let mut random = Random(1);
    for words in (0..2).flat_map(|_| (work.batch)(&mut random)) {
        let before = bridge.cache.clone();
        bridge.handle(operation_of(&words));
        if (bridge.cache != before) != wanted {
            return Err(format!("{}: {:x?} is other work", work.name, words));
        }
    }
    Ok(())
}

/// A line of the table: the medians of the repetitions, and the least and the greatest ratio.
fn measure(work: &Work, batches: usize, repetitions: usize) -> Result<String, String> {
    check_cache(work)?;
    let mut random = Random(1);
    let mut all = Vec::new();
    for _ in 0..repetitions {
        all.push(repetition(work, batches, &mut random)?);
    }
    let requests = (work.batch)(&mut random).len() * work.bridges * batches;
    let [first, second, third, ratio] = medians(&all);
    let ratios = sorted(&all, RATIO);
    let (least, greatest) = (ratios[0], ratios[ratios.len() - 1]);
    // `bench/run` takes the median of ratios to a base, and rounds it.
    let digits = if cfg!(base) { 4 } else { 2 };
    Ok(format!(
        "{:<20} {requests:>9} {first:>9.1} {second:>9.1} {third:>9.1} {ratio:>6.digits$} \
         {least:>6.digits$} to {greatest:.digits$}",
        work.name
    ))
}

fn run_works(name: Option<&String>, numbers: &[usize]) -> Result<(), String> {
    let repetitions = *numbers.get(1).unwrap_or(&REPETITIONS);
    let mut titles = Vec::new();
    for work in works() {
        if name.map_or(true, |name| name == work.name) {
            let names: Vec<&str> =
                work.about.programs().iter().map(|program| program.name).collect();
            if names != titles {
                let [first, second, third] = [names[0], names[1], names[2]];
                println!(
                    "work                  requests {first:>9} {second:>9} {third:>9}  ratio   \
                     all ratios"
                );
                titles = names;
            }
            let batches = *numbers.first().unwrap_or(&work.batches);
            println!("{}", measure(&work, batches, repetitions)?);
        }
    }
    Ok(())
}

fn main() {
    let arguments: Vec<String> = std::env::args().skip(1).collect();
    let numbers: Vec<usize> =
        arguments.iter().skip(1).filter_map(|text| text.parse().ok()).filter(|&k| k > 0).collect();
    let name = arguments.first();
    let known = name.map_or(true, |name| name == "list" || works().iter().any(|w| w.name == name));
    if !known || arguments.len() > 3 || numbers.len() + 1 != arguments.len().max(1) {
        eprintln!("usage: bench [WORK [BATCHES [REPETITIONS]]], or bench list");
        exit(2);
    }
    if name.is_some_and(|name| name == "list") {
        for work in works() {
            let requests = (work.batch)(&mut Random(1)).len() * work.bridges;
            println!("{} {}{}", work.name, requests, work.about.mark());
        }
        return;
    }
    if let Err(difference) = run_works(name, &numbers) {
        println!("{}", difference);
        exit(1);
    }
}
