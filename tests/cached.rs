// The exported function with a translation cache against the plain cached bridge: after every
// operation the whole answer, every word of every table and of the cache, and guard words around each.
//
//     cached SEEDS [WRONG]
//     cached names
//
// Each seed from 1 to SEEDS gives several lists of requests, edits and invalidates, each on tables and a
// cache of its own. A list is asked one operation to a call, then in pieces, then in one call. A list
// that starts with an invalidate for all, or on an empty cache, is also compared with the plain bridge
// without a cache, and between edits and invalidates with the exported function without a cache. On a
// difference it prints the seed, the list, the place in it, the request, and what was wanted and given;
// it then exits with 1. WRONG is the name of a plain cached bridge that is wrong in one way: it has to be
// found different. `names` prints these names.

#[path = "../plain/bridge.rs"]
#[allow(dead_code)]
mod bridge;
#[path = "../plain/cache.rs"]
#[allow(dead_code)]
mod cache;
mod cache_counts;
mod cache_words;
#[path = "../host/celltimber.rs"]
#[allow(dead_code)]
mod celltimber;
mod plain_words;
#[allow(dead_code)]
mod random;
#[allow(dead_code)]
mod seeded;
mod wrong_caches;

use bridge::{Bridge, Page, Pages, Part, Record, Request};
use cache::{handle_without, page_at, page_in, slot, Cached, Operation, Right, Rule, Scope, SLOTS};
use cache_counts::{Before, Counts, WANTED};
use cache_words::{inner, operation_of, operation_words, run_cached};
use celltimber::*;
use plain_words::{answer_words, run_proved};
use random::Random;
use seeded::{fence_word, pe_of, stop_word, table_word, Asked, WRONG_LENGTHS};
use std::fmt::LowerHex;
use std::process::exit;
use wrong_caches::WRONG;

// ---- Lists ----

/// An operation with its words.
#[derive(Clone, Copy)]
struct Sent {
    operation: Operation,
    words: RequestWords,
}

impl Sent {
    fn of(operation: Operation) -> Sent {
        Sent { operation, words: operation_words(operation) }
    }

    fn request(request: Request) -> Sent {
        Sent::of(Operation::Request(request))
    }

    fn named(words: RequestWords) -> Sent {
        Sent { operation: operation_of(&words), words }
    }
}

impl From<Asked> for Sent {
    fn from(asked: Asked) -> Sent {
        Sent { operation: Operation::Request(asked.request), words: asked.words }
    }
}

/// Stands in answer words before a call, and around every table.
const UNWRITTEN: u64 = 0x5555_AAAA_5555_AAAA;
const UNWRITTEN_16: u16 = 0x5AA5;

/// The guard words at each end of a table.
const GUARDS: usize = 8;

fn guarded<T: Copy>(table: &[T], guard: T) -> Vec<T> {
    [&vec![guard; GUARDS][..], table, &vec![guard; GUARDS][..]].concat()
}

/// The tables and the cache with guard words around each.
fn with_guards(bridge: &Cached) -> Cached {
    let (t, of_64) = (&bridge.tables, |table: &[u64]| guarded(table, UNWRITTEN));
    let tables = Bridge {
        requesters: guarded(&t.requesters, UNWRITTEN_16),
        translation: of_64(&t.translation),
        memory: of_64(&t.memory),
        peers: of_64(&t.peers),
        interrupts: of_64(&t.interrupts),
        windows: of_64(&t.windows),
        segments: guarded(&t.segments, UNWRITTEN_16),
        state: of_64(&t.state),
        ..*t
    };
    Cached { tables, cache: of_64(&bridge.cache) }
}

/// The tables of 64-bit words, and those of 16-bit words, by their names.
fn wide(bridge: &Cached) -> [(&'static str, &[u64]); 7] {
    let t = &bridge.tables;
    [
        ("translation", &t.translation),
        ("memory", &t.memory),
        ("peers", &t.peers),
        ("interrupts", &t.interrupts),
        ("windows", &t.windows),
        ("state", &t.state),
        ("cache", &bridge.cache),
    ]
}

fn narrow(bridge: &Cached) -> [(&'static str, &[u16]); 2] {
    [("requesters", &bridge.tables.requesters), ("segments", &bridge.tables.segments)]
}

/// A table with guard words has the words that are wanted, and its guard words.
fn same<T: PartialEq + Copy + LowerHex>(
    name: &str,
    wanted: &[T],
    given: &[T],
    guard: T,
) -> Result<(), String> {
    let within = inner(given, GUARDS);
    if wanted != within {
        let mut pairs = wanted.iter().zip(within).enumerate();
        return Err(match pairs.find(|(_, (wanted, given))| wanted != given) {
            Some((k, (wanted, given))) => {
                format!("word {} of {}: wanted {:x}, given {:x}", k, name, wanted, given)
            }
            None => format!("{}: wanted {} words, given {}", name, wanted.len(), within.len()),
        });
    }
    let end = given.len() - GUARDS;
    match given[..GUARDS].iter().chain(&given[end..]).any(|&word| word != guard) {
        true => Err(format!("a word outside {} is written", name)),
        false => Ok(()),
    }
}

/// Every word of the tables and of the cache.
fn same_words(wanted: &Cached, given: &Cached) -> Result<(), String> {
    for ((name, wanted), (_, given)) in wide(wanted).into_iter().zip(wide(given)) {
        same(name, wanted, given, UNWRITTEN)?;
    }
    for ((name, wanted), (_, given)) in narrow(wanted).into_iter().zip(narrow(given)) {
        same(name, wanted, given, UNWRITTEN_16)?;
    }
    Ok(())
}

/// The same list without a cache: by the plain bridge with edits, and, between edits and invalidates,
/// by the exported function on the memory of that stretch.
struct Without {
    plain: Bridge,
    proved: Bridge,
    requests: Vec<u64>,
    answers: Vec<u64>,
}

impl Without {
    fn new(tables: &Bridge) -> Without {
        let (plain, proved) = (tables.clone(), tables.clone());
        Without { plain, proved, requests: Vec::new(), answers: Vec::new() }
    }

    /// An operation that was answered with a cache, which left these tables.
    fn ask(
        &mut self,
        sent: &Sent,
        answer: &AnswerWords,
        after: &Bridge,
        counts: &mut Counts,
    ) -> Result<(), String> {
        if let Operation::Request(_) = sent.operation {
            self.requests.extend(sent.words);
            self.answers.extend(answer);
            counts.came("request answered alike without a cache");
        } else {
            self.stretch(counts)?;
            self.refuses(&sent.words, counts)?;
        }
        let wanted = answer_words(handle_without(&mut self.plain, sent.operation));
        if wanted != *answer {
            return Err(format!(
                "answer: wanted {:x?} without a cache, given {:x?}",
                wanted, answer
            ));
        }
        if let (Operation::Edit { number, value }, DONE) = (sent.operation, answer[AT_NAME]) {
            self.proved.memory[number as usize] = value;
            counts.came("edit without a cache");
        }
        match self.plain == *after {
            true => Ok(()),
            false => Err("tables: wanted those without a cache, given others".to_string()),
        }
    }

    /// The requests since the last edit or invalidate in one call. The tables of the plain bridge are
    /// those after the last of them.
    fn stretch(&mut self, counts: &mut Counts) -> Result<(), String> {
        let mut given = vec![UNWRITTEN; self.answers.len()];
        let count = run_proved(&mut self.proved, &self.requests, &mut given);
        counts.came_if("stretch between edits and invalidates", count > 0);
        let all = ANSWER_WORDS * count == given.len() && given == self.answers;
        if !all || self.proved != self.plain {
            return Err(format!(
                "answer: wanted those of celltimber_run to the last {} requests, given others",
                self.requests.len() / REQUEST_WORDS
            ));
        }
        self.requests.clear();
        self.answers.clear();
        Ok(())
    }

    /// An edit or an invalidate names no request to the exported function without a cache.
    fn refuses(&mut self, words: &RequestWords, counts: &mut Counts) -> Result<(), String> {
        let mut given = [UNWRITTEN; ANSWER_WORDS];
        let count = run_proved(&mut self.proved, words, &mut given);
        let good = self.plain.sizes_agree();
        let reason = if good { REASON_BAD_REQUEST } else { REASON_TABLE_LENGTH };
        if count != 1 || given != [REFUSE, reason, 0, 0, 0, 0, 0, 0] || self.proved != self.plain {
            return Err(format!("answer: wanted {} of celltimber_run, given {:x?}", reason, given));
        }
        let edit = good && words[0] == EDIT;
        counts.came_if("edit that is 2 without a cache", edit);
        counts.came_if("invalidate that is 2 without a cache", good && !edit);
        Ok(())
    }
}

/// Bytes of a PE's addresses that fare alike: a page, a unit of a bypass, or what is neither.
#[derive(Clone, Copy)]
struct Place {
    requester: u64,
    pe: u64,
    /// The address of the first byte.
    first: u64,
    bits: u64,
}

/// How a list starts.
#[derive(Clone, Copy, PartialEq)]
enum Start {
    /// With an invalidate for all, on any contents.
    Emptied,
    /// With zeros in the cache.
    Empty,
    /// On any contents.
    Any,
}

/// Tables and a cache, twice, and operations on them.
struct Run {
    random: Random,
    plain: Cached,
    /// What is lent to the exported function, with guard words.
    proved: Cached,
    without: Option<Without>,
    /// The PEs that most requests are of. Requester k is of the k-th of them, and again from the first.
    few: Vec<u64>,
    places: Vec<Place>,
}

/// Requesters that are of the few PEs.
const REQUESTERS: u64 = 16;

impl Run {
    fn new(mut random: Random, large: bool, start: Start) -> Run {
        let n = if large { random.between(130, 256) } else { random.between(1, 6) };
        let m = random.pick(&[0, 1, 31, 64]);
        let r = REQUESTERS + random.pick(&[0, 1, 48]);
        let words = 512 * random.between(4, 10) + random.pick(&[0, 0, 0, 1, 100]);
        let mut tables = Bridge::new(n, m, r, u64::MAX, words);
        seeded::fill(&mut random, &mut tables);
        let few = match large {
            false => (0..n).collect(),
            true => {
                let pe = random.below(n - 128);
                vec![pe, pe + 128, n - 1, random.below(n)]
            }
        };
        let plain = Cached { tables, cache: vec![0; CACHE_WORDS] };
        let (proved, without, places) = (Cached::default(), None, Vec::new());
        let mut run = Run { random, plain, proved, without, few, places };
        run.favour_few(large);
        run.choose_places();
        run.plain.tables.installed = run.installed();
        if start != Start::Empty {
            run.put_any_slots();
        }
        run.lend(start != Start::Any);
        run
    }

    /// The tables as they are now are those of both bridges.
    fn lend(&mut self, without: bool) {
        self.proved = with_guards(&self.plain);
        self.without = without.then(|| Without::new(&self.plain.tables));
    }

    /// The few PEs have requesters, and records whose tables lie in memory. PEs that are 128 apart have
    /// the same slots: in a large bridge the second has records like the first.
    fn favour_few(&mut self, large: bool) {
        let (random, t) = (&mut self.random, &mut self.plain.tables);
        for k in 0..REQUESTERS as usize {
            t.requesters[k] = self.few[k % self.few.len()] as u16;
        }
        let words = t.memory.len() as u64;
        for &pe in &self.few {
            for half in 0..2 {
                let first = 8 * pe as usize + 4 * half;
                if let Some(record) = record(random, words) {
                    t.translation[first..first + 4].copy_from_slice(&record);
                }
                // Often the record of another PE: both walk the same tables.
                let other = 8 * random.pick(&self.few) as usize;
                if random.percent(30) {
                    t.translation.copy_within(other..other + 4, first);
                }
            }
        }
        if large {
            let from = 8 * self.few[0] as usize;
            t.translation.copy_within(from..from + 8, from + 1_024);
            // Another first table, where the record has pages.
            for half in 0..2 {
                let [base, .., page] = &mut t.translation[from + 1_024 + 4 * half..][..4] else {
                    continue;
                };
                if *page != 0 && random.percent(50) {
                    *base = random.below(words >> 9) << 12;
                }
            }
        }
    }

    /// Pages that are asked for more often than others, some with the same slots.
    fn choose_places(&mut self) {
        for _ in 0..16 {
            let (pe, half) = (self.random.pick(&self.few), self.random.below(2));
            let record = self.plain.tables.record(pe, half);
            let Some(Record::Pages(pages)) = record else {
                let first = match record {
                    Some(Record::Bypass { start, .. }) => start << 24,
                    _ => self.random.any() & ((1 << 59) - 1) & !0xFFFF,
                };
                self.put_place(pe, half << 59 | first, 16);
                continue;
            };
            let number = self.page_number(&pages, half);
            self.put_page(&pages, &Page { pe, half, number });
            // The page after it, pages of the same slot, and the same page of another PE.
            let slot = Right.slot_of(&Page { pe, half, number }) as u64;
            for _ in 0..self.random.below(4) {
                let other = self.random.pick(&self.few);
                let far = self.random.below(1 << 20) << 8;
                let page = match self.random.below(5) {
                    0 => Page { pe, half, number: number + 1 },
                    1 => Page { pe: pe ^ 128, half, number },
                    2 => Page { pe, half, number: number ^ 256 },
                    3 => Page { pe: other, half: 0, number },
                    _ => {
                        let half = self.random.below(2);
                        let low = slot.wrapping_sub(37 * (2 * other + half)) % SLOTS as u64;
                        Page { pe: other, half, number: far | low }
                    }
                };
                if self.few.contains(&page.pe) {
                    if let Some(Record::Pages(pages)) = self.plain.tables.record(page.pe, page.half)
                    {
                        self.put_page(&pages, &page);
                    }
                }
            }
        }
    }

    /// The number of a page, mostly one whose last word allows a direction.
    fn page_number(&mut self, pages: &Pages, half: u64) -> u64 {
        let msi = 0xFFFF_0000 >> pages.page_bits;
        let bits = pages.levels * pages.index_bits;
        if half == 0 && msi >> bits == 0 && self.random.percent(40) {
            return msi;
        }
        let mut number = 0;
        for _ in 0..self.random.pick(&[1, 10, 10]) {
            number = self.random.next() & ((1 << bits) - 1);
            let walked = self.plain.tables.walk(pages, number, |_| {});
            if walked.is_ok_and(|(_, word)| word & 3 != 0) {
                break;
            }
        }
        number
    }

    fn put_page(&mut self, pages: &Pages, page: &Page) {
        let number = page.number & ((1 << (pages.levels * pages.index_bits)) - 1);
        self.put_place(page.pe, page.half << 59 | number << pages.page_bits, pages.page_bits);
    }

    fn put_place(&mut self, pe: u64, first: u64, bits: u64) {
        let few = self.few.len() as u64;
        let at = self.few.iter().position(|&of| of == pe).unwrap_or(0) as u64;
        let requester = at + few * self.random.below((REQUESTERS - at).div_ceil(few));
        self.places.push(Place { requester, pe, first, bits });
    }

    /// The installed size: the largest, one that cuts a page, or any.
    fn installed(&mut self) -> u64 {
        let place = self.place();
        let walked = page_at(&self.plain.tables, place.pe, place.first)
            .and_then(|(pages, page)| self.plain.tables.walk(&pages, page.number, |_| {}).ok());
        match (self.random.below(10), walked) {
            (0..=3, _) => u64::MAX,
            (4, _) => self.random.any(),
            (_, Some((_, word))) => {
                let size = 1 << place.bits;
                (word & !(size - 1)).saturating_add(self.random.below(size))
            }
            _ => 8 * self.plain.tables.memory.len() as u64,
        }
    }

    /// A list on tables with a number or a length that is wrong.
    fn put_wrong_length(&mut self, kind: u64) {
        if kind < WRONG_LENGTHS {
            seeded::put_wrong_length(&mut self.random, &mut self.plain.tables, kind);
        } else {
            let lengths = [0, 1, 4, 1_020, 1_023, 1_025, 1_028, 2_048];
            self.plain.cache.resize(self.random.pick(&lengths), 1);
        }
        self.lend(kind < WRONG_LENGTHS);
    }

    // ---- Any contents ----

    /// Slots of all kinds: empty ones with words, pages in their slots and elsewhere, with the word of
    /// the walk and with others, of no PE, of no half, and above the window.
    fn put_any_slots(&mut self) {
        for slot in 0..SLOTS {
            let words = self.any_slot();
            self.plain.cache[SLOT_WORDS * slot..][..SLOT_WORDS].copy_from_slice(&words);
        }
        for place in self.places.clone() {
            let Some((_, page)) = page_at(&self.plain.tables, place.pe, place.first) else {
                continue;
            };
            let mut words = self.slot_of_place(&place);
            match self.random.below(14) {
                0 => words[0] = 1 + self.random.pick(&self.few),
                1 => words[1] ^= 1,
                2 => words[2] ^= 256 << self.random.below(8),
                3 => words[2] ^= 1 << 32,
                4 => words[0] = 0,
                5 | 6 => words[3] = table_word(&mut self.random, 1 << 12),
                7..=9 => words[3] = words[3] & !3 | self.random.below(3),
                10 => continue,
                _ => {}
            }
            let slot = Right.slot_of(&page);
            self.plain.cache[SLOT_WORDS * slot..][..SLOT_WORDS].copy_from_slice(&words);
        }
    }

    fn any_slot(&mut self) -> [u64; SLOT_WORDS] {
        let place = self.place();
        let n = self.plain.tables.n;
        let mut words = self.slot_of_place(&place);
        match self.random.below(14) {
            0..=4 => return [0; SLOT_WORDS],
            5 => words[0] = 0,
            6 => words[0] = n + self.random.pick(&[1, 2, 1 << 16, u64::MAX - n]),
            7 => words[1] = self.random.pick(&[2, 3, 1 << 32, u64::MAX]),
            8 | 9 => {
                let bits = match self.plain.tables.record(place.pe, place.first >> 59) {
                    Some(Record::Pages(pages)) => pages.levels * pages.index_bits,
                    _ => 9,
                };
                words[2] |= (1 + self.random.below(3)) << bits;
            }
            10 => words[3] = self.random.next(),
            11 => words = words.map(|_| self.random.any()),
            _ => {}
        }
        words
    }

    /// What a slot holds after a pass of a place; the word is any where the walk has none.
    fn slot_of_place(&mut self, place: &Place) -> [u64; SLOT_WORDS] {
        let tables = &self.plain.tables;
        let Some((pages, page)) = page_at(tables, place.pe, place.first) else {
            return [place.pe + 1, place.first >> 59, place.first >> 12 & 0xFFFF, 3];
        };
        let walked = tables.walk(&pages, page.number, |_| {});
        let word = walked.map_or_else(|_| self.random.next(), |(_, word)| word);
        [page.pe + 1, page.half, page.number, word]
    }

    // ---- Operations ----

    fn place(&mut self) -> Place {
        self.random.pick(&self.places)
    }

    /// An address of a place; often that of an MSI, where the place has such addresses.
    fn address(&mut self, place: &Place) -> u64 {
        let address = place.first | self.random.below(1 << place.bits);
        if place.first >> place.bits == 0xFFFF_0000 >> place.bits && self.random.percent(40) {
            return 0xFFFF_0000 | address & 0xFFFF;
        }
        address
    }

    /// The next operations: one, or more where a PE is released first. A fence stands for a few.
    fn operations(&mut self) -> Vec<Sent> {
        let fenced = fence_word(&self.plain.tables) & FENCE != 0;
        let mut all = Vec::new();
        let mut sent = match self.random.below(100) {
            _ if fenced && self.random.percent(12) => Sent::request(Request::FenceClear),
            0..=56 => {
                let sent = self.dma();
                let pe = pe_of(&self.plain.tables, sent.words[1]);
                let stopped = stop_word(&self.plain.tables, pe) & DMA_STOP != 0;
                if stopped && self.random.percent(80) {
                    all.push(Sent::request(Request::Clear { pe, part: Part::Dma }));
                }
                sent
            }
            57..=70 => self.edit(),
            71..=82 => self.invalidate(),
            83 => Sent::request(Request::FenceClear),
            84 => Sent::request(Request::Fatal { requester: self.requester() }),
            85 | 86 => Sent::request(Request::Error { requester: self.requester() }),
            87 => Sent::from(seeded::clear(&mut self.random, self.plain.tables.n)),
            88..=90 => self.no_operation(),
            _ => self.others(),
        };
        // Words that an operation does not name are not read.
        let named = match sent.operation {
            Operation::Invalidate(Scope::All) => 2,
            Operation::Edit { .. } | Operation::Invalidate(Scope::Pe(_)) => 3,
            Operation::Invalidate(Scope::Address { .. }) => 4,
            Operation::Request(_) => 6,
        };
        sent.words[named..].fill_with(|| self.random.next());
        all.push(sent);
        all
    }

    fn requester(&mut self) -> u64 {
        self.random.mostly_below(self.plain.tables.r)
    }

    /// A DMA of a place, or any.
    fn dma(&mut self) -> Sent {
        if self.random.percent(12) {
            let requester = self.requester();
            let pe = pe_of(&self.plain.tables, requester);
            let t = &self.plain.tables;
            return Sent::from(seeded::dma(&mut self.random, t, requester, pe));
        }
        let place = self.place();
        let mut address = self.address(&place);
        if self.random.percent(4) {
            address |= self.random.next() << 60;
        }
        let room = 4_096 - address % 4_096;
        let length = if self.random.percent(2) { 0 } else { self.random.between(1, room) };
        let write = self.random.percent(50);
        Sent::request(Request::Dma { requester: place.requester, write, address, length, data: 0 })
    }

    /// An edit of a word that a walk reads, or of any.
    fn edit(&mut self) -> Sent {
        let length = self.plain.tables.memory.len() as u64;
        let number = match self.random.below(20) {
            0..=14 => {
                let place = self.place();
                let number = self.random.below(SLOTS as u64) as usize;
                let held = page_in(&self.plain.tables, slot(&self.plain.cache, number));
                let of_place = page_at(&self.plain.tables, place.pe, place.first);
                let page = if self.random.percent(40) { held.or(of_place) } else { of_place };
                let mut read = Vec::new();
                if let Some((pages, page)) = page {
                    let _ = self.plain.tables.walk(&pages, page.number, |number| read.push(number));
                }
                if read.is_empty() {
                    0
                } else {
                    self.random.pick(&read)
                }
            }
            15..=17 => self.random.below(length),
            _ => self.random.pick(&[length, length + 1, (1 << 32) + 1, 1 << 61, u64::MAX]),
        };
        let old = *self.plain.tables.memory.get(number as usize).unwrap_or(&0);
        let value = match self.random.below(8) {
            0 => old,
            1 | 2 => old ^ self.random.between(1, 3),
            3 => old & 0xFFF | self.random.below(length >> 9) << 12,
            4 => old | 3,
            _ => table_word(&mut self.random, length),
        };
        Sent::of(Operation::Edit { number, value })
    }

    fn invalidate(&mut self) -> Sent {
        let place = self.place();
        let mut pe = if self.random.percent(90) { place.pe } else { self.random.pick(&self.few) };
        if self.random.percent(10) {
            let n = self.plain.tables.n;
            pe = self.random.pick(&[n, n, n + 1, n + 1, 1 << 16, u64::MAX, u64::MAX - 1]);
        }
        Sent::of(Operation::Invalidate(match self.random.below(30) {
            0 => Scope::All,
            1..=7 => Scope::Pe(pe),
            _ => {
                let mut address = self.address(&place);
                // The page that some slot holds.
                let number = self.random.below(SLOTS as u64) as usize;
                let held = page_in(&self.plain.tables, slot(&self.plain.cache, number));
                if let (Some((pages, page)), true) = (held, self.random.percent(50)) {
                    let offset = page.number << pages.page_bits & ((1 << 59) - 1);
                    let (first, bits) = (page.half << 59 | offset, pages.page_bits);
                    pe = page.pe;
                    address = self.address(&Place { requester: 0, pe, first, bits });
                }
                match self.random.below(20) {
                    0..=5 => address |= self.random.next() << 60,
                    6 => address |= 1 << self.random.between(20, 58),
                    7 | 8 => address = 0xFFFF_0000 | address & 0xFFFF,
                    _ => {}
                }
                Scope::Address { pe, address }
            }
        }))
    }

    /// Words that name no operation: a kind, a direction, a part, data or a scope off its limit.
    fn no_operation(&mut self) -> Sent {
        let mut words = seeded::no_request(&mut self.random).words;
        if self.random.percent(50) {
            words[0] = INVALIDATE;
            words[1] = self.random.pick(&[SCOPE_ADDRESS + 1, 4, 1 << 32, u64::MAX]);
        }
        Sent::named(words)
    }

    /// An MSI, a load, a store, or a firmware request for an interrupt.
    fn others(&mut self) -> Sent {
        let (random, t) = (&mut self.random, &self.plain.tables);
        let (requester, interrupt) = (random.below(REQUESTERS), random.mostly_below(t.m));
        match random.below(8) {
            0..=2 => Sent::from(seeded::msi(random, requester, interrupt)),
            3..=5 => Sent::from(seeded::access(random, t)),
            6 => Sent::request(Request::End { interrupt }),
            _ => {
                let priority = random.pick(&[0, 5, 254, 255, 256]);
                Sent::request(Request::Priority { interrupt, priority })
            }
        }
    }

    // ---- What is compared ----

    fn ask(
        &mut self,
        sent: &Sent,
        rule: &dyn Rule,
        counts: &mut Counts,
    ) -> Result<AnswerWords, String> {
        let before = Before::of(&self.plain, sent.operation);
        let wanted = answer_words(self.plain.handle_by(rule, sent.operation));
        let told = |difference| format!("request {:x?}\n{}", sent.words, difference);
        let given = serve(&mut self.proved, &sent.words, 1).map_err(told)?;
        if given != wanted {
            return Err(told(format!("answer: wanted {:x?}, given {:x?}", wanted, given)));
        }
        same_words(&self.plain, &self.proved).map_err(told)?;
        if let Some(without) = &mut self.without {
            without.ask(sent, &wanted, &self.plain.tables, counts).map_err(told)?;
        }
        counts.add(&before, &self.plain, sent.operation, &wanted);
        let unnamed = sent.operation == operation_of(&[UNNAMED; REQUEST_WORDS]);
        counts.came_if("words of no operation", unnamed);
        Ok(wanted)
    }

    /// The whole list again, from what was lent at the start, in calls of up to so many operations.
    fn again(
        &mut self,
        mut lent: Cached,
        all: &[Sent],
        answers: &[AnswerWords],
        to_a_call: u64,
    ) -> Result<(), String> {
        let mut place = 0;
        while place < all.len() {
            let left = (all.len() - place) as u64;
            let count = self.random.between(1, left.min(to_a_call)) as usize;
            let count = if to_a_call >= left { left as usize } else { count };
            let words: Vec<u64> =
                all[place..place + count].iter().flat_map(|sent| sent.words).collect();
            let given = serve(&mut lent, &words, count)?;
            let wanted = answers[place..place + count].concat();
            if given != wanted {
                return Err(format!(
                    "answer: wanted {:x?} from operation {} on, given {:x?}",
                    wanted,
                    place + 1,
                    given
                ));
            }
            place += count;
        }
        same_words(&self.plain, &lent)
    }
}

/// A record with pages, a bypass, or none: the one that is there stays.
fn record(random: &mut Random, memory_words: u64) -> Option<[u64; 4]> {
    match random.below(20) {
        0 => None,
        1 | 2 => {
            let start = random.below(64);
            Some([start, start + 1 + random.below(16), 1, 0])
        }
        _ => {
            let page_code = random.pick(&[1, 1, 1, 1, 5, 5, 13, 17]);
            let table_code = if random.percent(10) { 2 } else { 1 };
            let index_bits = table_code + 8;
            let most = (59 - (page_code + 11)) / index_bits;
            let levels = random.pick(&[1, 1, 2, 2, 2, 3, 3, 3, 4, 5]).min(most);
            let base = random.below(memory_words >> index_bits) << (index_bits + 3);
            Some([base, levels, table_code, page_code])
        }
    }
}

/// One call of the exported function on tables with guard words: the answers.
fn serve(lent: &mut Cached, words: &[u64], operations: usize) -> Result<Vec<u64>, String> {
    let mut answers = vec![UNWRITTEN; 2 * GUARDS + ANSWER_WORDS * operations];
    let end = answers.len() - GUARDS;
    let room = &mut answers[GUARDS..end];
    let count = run_cached(&mut lent.tables, &mut lent.cache, GUARDS, words, room);
    if count != operations {
        return Err(format!("answer: wanted {} served, given {}", operations, count));
    }
    let given = inner(&answers, GUARDS).to_vec();
    same("answers", &given, &answers, UNWRITTEN)?;
    Ok(given)
}

// ---- The program ----

/// Lists to each seed: one with PEs that are 128 apart, one with a wrong number or length, one that is
/// emptied, one on an empty cache, one over all slots, and shorter ones on any contents.
const LISTS: u64 = 10;

fn run_list(seed: u64, number: u64, rule: &dyn Rule, counts: &mut Counts) -> Result<(), String> {
    let start = match number {
        0 | 2 => Start::Emptied,
        3 | 4 => Start::Empty,
        _ => Start::Any,
    };
    let mut run = Run::new(Random(seed << 8 | number), number == 0, start);
    let mut waiting = Vec::new();
    let mut limit = if start == Start::Any { 120 } else { 500 };
    match number {
        1 => {
            // No operation changes a word: all are made before the length is wrong.
            while waiting.len() < 50 {
                waiting.extend(run.operations());
            }
            limit = waiting.len();
            // By turns a number or length of the other tables, and of the cache.
            run.put_wrong_length(if seed % 2 == 0 { seed / 2 % WRONG_LENGTHS } else { u64::MAX });
        }
        4 => {
            waiting = run.sweep();
            limit = waiting.len();
        }
        _ if start == Start::Emptied => waiting.push(Sent::of(Operation::Invalidate(Scope::All))),
        _ => {}
    }
    counts.lists += 1;
    let lent = run.proved.clone();
    let (mut all, mut answers) = (Vec::new(), Vec::new());
    while all.len() < limit {
        if waiting.is_empty() {
            waiting = run.operations();
        }
        for sent in std::mem::take(&mut waiting) {
            let told = |difference| format!("operation {}:\n{}", all.len() + 1, difference);
            answers.push(run.ask(&sent, rule, counts).map_err(told)?);
            all.push(sent);
        }
    }
    if let Some(without) = &mut run.without {
        without.stretch(counts).map_err(|difference| format!("at the end:\n{}", difference))?;
    }
    run.again(lent.clone(), &all, &answers, 20)
        .map_err(|difference| format!("in pieces:\n{}", difference))?;
    run.again(lent, &all, &answers, u64::MAX)
        .map_err(|difference| format!("in one call:\n{}", difference))
}

impl Run {
    /// DMAs that fill each slot and hit it, then others that evict these: by a record of each number
    /// of levels, on tables in which every word allows both directions.
    fn sweep(&mut self) -> Vec<Sent> {
        let Run { random, plain, .. } = self;
        let t = &mut plain.tables;
        t.installed = u64::MAX;
        t.state.fill(0);
        let tables = t.memory.len() as u64 >> 9;
        for word in &mut t.memory {
            *word = random.below(tables) << 12 | random.next() & 0xFFC | 3;
        }
        let mut all = Vec::new();
        for (k, record) in t.translation.chunks_mut(4).enumerate().take(4) {
            let levels = 1 + (random.below(3) + k as u64) % 3;
            let base = random.below(tables) << 12;
            record.copy_from_slice(&[base, levels, 1, random.pick(&[1, 5])]);
            let page_bits = record[3] + 11;
            let (pe, half) = (k as u64 / 2, k as u64 % 2);
            let (start, stride) = (random.next() & 0xFF, random.next() | 1);
            let high = random.below(1 << (9 * levels - 9)) << 9;
            // The pages of one half of a table twice, and then of the other half.
            for round in 0..4 {
                for k in 0..SLOTS as u64 {
                    let low = start.wrapping_add(k.wrapping_mul(stride)) % SLOTS as u64;
                    let page = high | (round / 2) << 8 | low;
                    let address = half << 59 | page << page_bits | random.below(4_096);
                    let requester = t.requesters.iter().position(|&of| u64::from(of) == pe);
                    let Some(requester) = requester.map(|at| at as u64) else { continue };
                    let write = random.percent(50);
                    let dma = Request::Dma { requester, write, address, length: 1, data: 0 };
                    if address >> 16 != 0xFFFF {
                        all.push(Sent::request(dma));
                    }
                }
            }
        }
        self.lend(true);
        all
    }
}

fn run_all(seeds: u64, rule: &dyn Rule) -> Result<Counts, String> {
    let mut counts = Counts::new();
    for seed in 1..=seeds {
        for number in 0..LISTS {
            run_list(seed, number, rule, &mut counts)
                .map_err(|difference| format!("seed {}, list {}, {}", seed, number, difference))?;
        }
    }
    Ok(counts)
}

fn main() {
    let arguments: Vec<String> = std::env::args().skip(1).collect();
    if arguments == ["names"] {
        for (name, _) in WRONG {
            println!("{}", name);
        }
        return;
    }
    let named = |name: &String| WRONG.iter().find(|wrong| wrong.0 == name).map(|wrong| wrong.1);
    let (seeds, rule) = match &arguments[..] {
        [seeds] => (seeds.parse().ok(), Some(&Right as &dyn Rule)),
        [seeds, name] => (seeds.parse().ok(), named(name)),
        _ => (None, None),
    };
    match (seeds, rule) {
        (Some(seeds), Some(rule)) => exit(report(run_all(seeds, rule))),
        _ => {
            eprintln!("usage: cached SEEDS [WRONG], or cached names");
            exit(2)
        }
    }
}

/// Prints the counts or the difference; gives the exit status.
fn report(ran: Result<Counts, String>) -> i32 {
    let counts = match ran {
        Ok(counts) => counts,
        Err(difference) => {
            println!("{}", difference);
            return 1;
        }
    };
    let least = counts.least();
    println!(
        "{} lists, {} operations, no difference; {} times or more every answer, every reason, a fill \
         and a hit of each slot, and of these:",
        counts.lists, counts.operations, least
    );
    for name in WANTED {
        println!("{:>8} {}", counts.came[name], name);
    }
    if least >= 100 {
        return 0;
    }
    println!("names {:?}\nreasons {:?}", counts.names, counts.reasons);
    println!("filled {:?}\nhit {:?}", counts.filled, counts.hit);
    println!("one of these came {} times, not 100", least);
    1
}
