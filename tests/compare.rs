// The exported function against the plain bridge: after every request the whole answer and every
// word of every table.
//
//     compare GENERATE SEEDS LINES
//
// Each seed from 1 to SEEDS gives two inputs: the replay text that `GENERATE SEED LINES` writes,
// and tables and requests made here, which go beyond the sizes and lengths of the text. On a
// difference it prints the seed, the line, the request and both answers.

#[path = "../host/celltimber.rs"]
#[allow(dead_code)]
mod celltimber;
mod plain_words;
#[allow(dead_code)]
mod random;
#[path = "../plain/replay.rs"]
#[allow(dead_code)]
mod replay;
mod seeded;

use celltimber::*;
use plain_words::{answer_words, run_proved};
use random::Random;
use replay::bridge::{self, Bridge, Name, Part, Request};
use replay::{Line, INSTALLED};
use seeded::{fence_word, lists, pe_of, stop_word, word, Asked, WRONG_LENGTHS};
use std::fmt::LowerHex;
use std::mem;
use std::process::{exit, Command, Stdio};

/// Stands in answer words before a call.
const UNWRITTEN: u64 = 0x5555_AAAA_5555_AAAA;

// ---- Both bridges ----

/// How often each answer and each reason came, how often a peer was served after a refusal had
/// frozen a PE that lists it, how often a walk stopped at a word of each kind, how often a freeze
/// wrote over a word left over in an empty record, how DMAs stood to the installed size, and what the
/// fence did.
#[derive(Default)]
struct Counts {
    requests: u64,
    names: [u64; 7],
    reasons: [u64; 19],
    peers: u64,
    stopped_at: [u64; 4],
    left_over: u64,
    /// Reason 17 by the table words read: none in a bypass, 1, 2, 3 or more.
    above_after: [u64; 4],
    /// Reason 17 in pages of each size.
    above_in: [u64; 4],
    /// A pass whose last byte is the last one installed, and a refusal with the byte after it.
    last_installed: u64,
    first_above: u64,
    /// A refusal with byte 2^64 - 1.
    last_of_all: u64,
    /// Reason 8 for a direction, where the other one would be 17.
    forbidden_above: u64,
    fence: FenceCounts,
}

/// The page codes, in the order of `above_in`.
const PAGE_CODES: [u64; 4] = [1, 5, 13, 17];

// The kinds of words that a walk stops at, by their places in `stopped_at`.
const UPPER_INVALID: usize = 0;
const UPPER_MISALIGNED: usize = 1;
const LAST: usize = 2;
const MISSING: usize = 3;

impl Counts {
    fn add(&mut self, answer: &AnswerWords) {
        self.requests += 1;
        self.names[answer[0] as usize] += 1;
        self.reasons[answer[1] as usize] += 1;
    }

    /// How a DMA that was answered stands to the installed size.
    fn add_range(&mut self, tables: &mut Bridge, request: Request, answer: &AnswerWords) {
        let Request::Dma { requester, write, address, length, data } = request else { return };
        let installed = tables.installed;
        match (answer[AT_NAME], answer[AT_REASON]) {
            (PASS, _) => {
                self.last_installed += u64::from(answer[AT_VALUE] + length == installed);
            }
            (_, REASON_ABOVE_INSTALLED) => {
                let pe = u64::from(tables.requesters[requester as usize]);
                let page_code = word(&tables.translation, 8, pe, 4 * (address >> 59) + 3);
                self.above_after[answer[AT_WORDS].min(3) as usize] += 1;
                if let Some(place) = PAGE_CODES.iter().position(|&code| code == page_code) {
                    self.above_in[place] += 1;
                }
                let last = last_byte(tables, request);
                self.first_above += u64::from(last == Some(installed));
                self.last_of_all += u64::from(last == Some(u64::MAX));
            }
            (_, REASON_TABLE_WORD) => {
                let other = Request::Dma { requester, write: !write, address, length, data };
                let above = last_byte(tables, other).is_some_and(|last| last >= installed);
                self.forbidden_above += u64::from(above);
            }
            _ => {}
        }
    }

    /// The least of these counts; 12 and 13 are in records only.
    fn least(&self, of_text: bool) -> u64 {
        let refused = (1..=11).chain([14, 15, 17, 18]).map(|reason| self.reasons[reason]);
        let by_kind = self.stopped_at.into_iter().chain(self.above_after).chain(self.above_in);
        let others = [
            self.peers,
            self.left_over,
            self.last_installed,
            self.first_above,
            self.last_of_all,
            self.forbidden_above,
            self.fence.least(of_text),
        ];
        self.names.into_iter().chain(refused).chain(by_kind).chain(others).min().unwrap_or(0)
    }
}

/// How often the fence did each thing that it does, and how often it left all as it was.
#[derive(Default)]
struct FenceCounts {
    /// Reason 18 of a DMA, an MSI, an error message, a load and a store.
    refused: [u64; 5],
    /// Reason 18 in the place of each reason of `AFTER_FENCED`.
    before: [u64; 4],
    /// On a fenced bridge: a DMA, load or store that is 2, and a firmware request that is obeyed.
    badly_formed: u64,
    firmware: u64,
    /// An error message of a PE that lists PE N, which leaves the fence word as it is.
    lists_n: u64,
    /// A fatal message that is obeyed where the fence is clear, and where it is set; one of a stopped
    /// PE that is obeyed; and one that is 3.
    fatal: [u64; 2],
    fatal_stopped: u64,
    fatal_unknown: u64,
    /// A fence clear where the fence is clear, and where it is set.
    clear: [u64; 2],
    /// Other bits of the fence word that stay where the fence is set, and where it is cleared.
    other_bits: [u64; 2],
}

/// The reasons that 18 comes before, in the order of `before`.
const AFTER_FENCED: [u64; 4] =
    [REASON_UNKNOWN_REQUESTER, REASON_DMA_STOPPED, REASON_NO_WINDOW, REASON_MMIO_STOPPED];

impl FenceCounts {
    /// A request that was answered; the fence word was `before`.
    fn add(&mut self, tables: &mut Bridge, before: u64, request: Request, answer: &AnswerWords) {
        let fenced = usize::from(before & FENCE != 0);
        let same = before == fence_word(tables);
        match (request, answer[AT_NAME], answer[AT_REASON]) {
            (_, _, REASON_FENCED) => {
                self.refused[kind_refused(request)] += 1;
                let reason = unfenced_reason(tables, request);
                if let Some(place) = AFTER_FENCED.iter().position(|&after| after == reason) {
                    self.before[place] += 1;
                }
            }
            (Request::Fatal { requester }, DONE, _) => {
                let pe = u64::from(tables.requesters[requester as usize]);
                self.fatal[fenced] += 1;
                self.fatal_stopped += u64::from(stop_word(tables, pe) & 3 != 0);
                self.other_bits[0] += u64::from(!same && before != 0);
            }
            (Request::Fatal { .. }, _, REASON_UNKNOWN_REQUESTER) => self.fatal_unknown += 1,
            (Request::FenceClear, DONE, _) => {
                self.clear[fenced] += 1;
                self.other_bits[1] += u64::from(!same && before != FENCE);
            }
            (Request::Error { requester }, DONE, _) => {
                let pe = u64::from(tables.requesters[requester as usize]);
                self.lists_n += u64::from(same && lists(tables, pe, tables.n));
            }
            (
                Request::Dma { .. } | Request::Load { .. } | Request::Store { .. },
                _,
                REASON_BAD_REQUEST,
            ) => self.badly_formed += fenced as u64,
            (
                Request::Clear { .. } | Request::End { .. } | Request::Priority { .. },
                DONE | MSI | HELD,
                _,
            ) => self.firmware += fenced as u64,
            _ => {}
        }
    }

    /// The least of these counts; a text has no fatal message and no fence clear.
    fn least(&self, of_text: bool) -> u64 {
        let others = [self.badly_formed, self.firmware, self.lists_n];
        let of_both = self.refused.into_iter().chain(self.before).chain(others);
        let fatal = self.fatal.into_iter().chain([self.fatal_stopped, self.fatal_unknown]);
        let in_no_text = fatal.chain(self.clear).chain(self.other_bits);
        of_both.chain(in_no_text.filter(|_| !of_text)).min().unwrap_or(0)
    }

    fn told(&self, of_text: bool) -> String {
        let mut told = format!(
            "18 of a DMA, an MSI, an error message, a load and a store ({:?}), before 3, 4, 10 and 11 \
             ({:?}), and after 2 ({}); firmware obeyed on a fenced bridge ({}); a fence word that an \
             error message leaves, of a PE that lists PE N ({})",
            self.refused, self.before, self.badly_formed, self.firmware, self.lists_n
        );
        if !of_text {
            told += &format!(
                "; a fatal message obeyed without a fence and with one ({:?}), of a stopped PE ({}), \
                 and one that is 3 ({}); a fence clear without a fence and with one ({:?}); other bits \
                 of the fence word that stay when the fence is set and cleared ({:?})",
                self.fatal, self.fatal_stopped, self.fatal_unknown, self.clear, self.other_bits
            );
        }
        told
    }
}

/// The place in `refused` of a request that was 18.
fn kind_refused(request: Request) -> usize {
    match request {
        Request::Dma { address, .. } => usize::from(is_msi(address)),
        Request::Error { .. } => 2,
        Request::Load { .. } => 3,
        Request::Store { .. } => 4,
        _ => panic!("18 to {:x?}", request),
    }
}

fn is_msi(address: u64) -> bool {
    address >> 60 == 1 || (0xFFFF_0000..=0xFFFF_FFFF).contains(&address)
}

/// The reason of a request if the fence were clear. The tables stay as they are.
fn unfenced_reason(tables: &mut Bridge, request: Request) -> u64 {
    let (state, interrupts) = (tables.state.clone(), tables.interrupts.clone());
    tables.handle(Request::FenceClear);
    let answer = tables.handle(request);
    tables.state = state;
    tables.interrupts = interrupts;
    answer.reason
}

/// The last byte that a DMA reaches in the system where its record and its table words allow it,
/// whatever is installed, whoever is stopped, fenced or not. The tables stay as they are.
fn last_byte(tables: &mut Bridge, request: Request) -> Option<u64> {
    let Request::Dma { address, length, .. } = request else { return None };
    // An MSI would change an interrupt.
    if address >> 60 != 0 || is_msi(address) {
        return None;
    }
    let nobody_stopped = vec![0; tables.state.len()];
    let state = mem::replace(&mut tables.state, nobody_stopped);
    let installed = mem::replace(&mut tables.installed, u64::MAX);
    let answer = tables.handle(request);
    tables.state = state;
    tables.installed = installed;
    match (answer.name, answer.reason) {
        (Name::Pass, _) => Some(answer.value + (length - 1)),
        (_, REASON_ABOVE_INSTALLED) => Some(u64::MAX),
        _ => None,
    }
}

/// The same tables twice: `proved` is lent to the exported function.
#[derive(Clone, Default)]
struct Pair {
    plain: Bridge,
    proved: Bridge,
    /// Peers that were running when a refusal froze a PE that lists them, and run since.
    spared: Vec<u64>,
}

impl Pair {
    /// Both answer one request.
    fn ask(&mut self, asked: &Asked, counts: &mut Counts) -> Result<AnswerWords, String> {
        let (before, fence) = (left_over(&self.plain), fence_word(&self.plain));
        let wanted = answer_words(self.plain.handle(asked.request));
        let mut answers = [UNWRITTEN; ANSWER_WORDS + 1];
        let count = run_proved(&mut self.proved, &asked.words, &mut answers);
        let given = &answers[..ANSWER_WORDS];
        let told = |difference| {
            let words = asked.words;
            format!(
                "request {:x?}\nproved  {:x?}\nplain   {:x?}\n{}",
                words, given, wanted, difference
            )
        };
        if count != 1 {
            return Err(told(format!("{} served", count)));
        }
        if answers[ANSWER_WORDS] != UNWRITTEN {
            return Err(told("the word after the answer is written".to_string()));
        }
        if given != wanted {
            return Err(told("another answer".to_string()));
        }
        self.same().map_err(told)?;
        counts.add(&wanted);
        counts.peers += self.peer_served(asked.request, &wanted);
        if let Some(kind) = stopped_at(&self.plain, asked.request, &wanted) {
            counts.stopped_at[kind] += 1;
        }
        if !matches!(asked.request, Request::Clear { .. }) {
            counts.left_over += before - left_over(&self.plain);
        }
        counts.add_range(&mut self.plain, asked.request, &wanted);
        counts.fence.add(&mut self.plain, fence, asked.request, &wanted);
        Ok(wanted)
    }

    /// Another installed size.
    fn install(&mut self, installed: u64) {
        self.plain.installed = installed;
        self.proved.installed = installed;
    }

    /// 1 where this answer is the first pass of a spared peer.
    fn peer_served(&mut self, request: Request, answer: &AnswerWords) -> u64 {
        let (t, spared) = (&self.plain, &mut self.spared);
        let runs = |pe: u64| stop_word(t, pe) & 3 == 0;
        spared.retain(|&pe| runs(pe));
        match (request, answer[0], answer[1]) {
            (Request::Dma { requester, .. }, REFUSE, 5..=9 | 15 | 17) => {
                let failing = u64::from(t.requesters[requester as usize]);
                spared.extend((0..t.n).filter(|&pe| lists(t, failing, pe) && runs(pe)));
                0
            }
            (_, PASS, _) => {
                let before = spared.len();
                spared.retain(|&pe| pe != answer[4]);
                u64::from(spared.len() < before)
            }
            _ => 0,
        }
    }

    /// The whole list in one call gives these answers and the tables of `after`.
    fn ask_all(
        &mut self,
        all: &[Asked],
        wanted: &[AnswerWords],
        after: &Pair,
    ) -> Result<(), String> {
        let requests: Vec<u64> = all.iter().flat_map(|asked| asked.words).collect();
        let mut given = vec![UNWRITTEN; ANSWER_WORDS * wanted.len()];
        let count = run_proved(&mut self.proved, &requests, &mut given);
        if count != all.len() {
            return Err(format!("{} requests, {} served", all.len(), count));
        }
        for (k, given) in given.chunks(ANSWER_WORDS).enumerate() {
            if given != wanted[k] {
                return Err(format!(
                    "request {} {:x?}\nproved  {:x?}\nplain   {:x?}",
                    k + 1,
                    all[k].words,
                    given,
                    wanted[k]
                ));
            }
        }
        self.plain = after.plain.clone();
        self.same()
    }

    fn same(&self) -> Result<(), String> {
        let (a, b) = (&self.proved, &self.plain);
        if a == b {
            return Ok(());
        }
        same("requesters", &a.requesters, &b.requesters)?;
        same("translation", &a.translation, &b.translation)?;
        same("memory", &a.memory, &b.memory)?;
        same("peers", &a.peers, &b.peers)?;
        same("interrupts", &a.interrupts, &b.interrupts)?;
        same("windows", &a.windows, &b.windows)?;
        same("segments", &a.segments, &b.segments)?;
        same("state", &a.state, &b.state)?;
        Err("another size".to_string())
    }
}

/// The kind of the word that an answer names, if it names one that is not at address 0.
fn stopped_at(tables: &Bridge, request: Request, answer: &AnswerWords) -> Option<usize> {
    let (Request::Dma { requester, address, .. }, 1..) = (request, answer[AT_WORD]) else {
        return None;
    };
    let pe = u64::from(tables.requesters[requester as usize]);
    let levels = word(&tables.translation, 8, pe, 4 * (address >> 59) + 1);
    let failed = word(&tables.memory, 1, answer[AT_WORD] / 8, 0);
    Some(match answer[AT_REASON] {
        REASON_OUTSIDE_MEMORY => MISSING,
        _ if answer[AT_WORDS] == levels => LAST,
        _ if failed & 3 == 0 => UPPER_INVALID,
        _ => UPPER_MISALIGNED,
    })
}

/// The PEs with a word left over in an empty error record.
fn left_over(tables: &Bridge) -> u64 {
    let of_pes = tables.state.chunks_exact(STATE_WORDS);
    of_pes.filter(|words| words[1] == 0 && words[3] != 0).count() as u64
}

fn same<T: PartialEq + LowerHex>(name: &str, proved: &[T], plain: &[T]) -> Result<(), String> {
    for (k, (proved, plain)) in proved.iter().zip(plain).enumerate() {
        if proved != plain {
            return Err(format!("word {} of {}: proved {:x}, plain {:x}", k, name, proved, plain));
        }
    }
    Ok(())
}

// ---- Replay text ----

fn compare_text(text: &[u8], counts: &mut Counts) -> Result<(), String> {
    let mut pair = Pair::default();
    for (k, line) in text.split(|&byte| byte == b'\n').enumerate() {
        let parsed = replay::parse(line);
        if let Some(Line::Ask(request)) = parsed {
            pair.ask(&Asked::of(request), counts).map_err(|difference| {
                format!("line {}: {}\n{}", k + 1, String::from_utf8_lossy(line), difference)
            })?;
        } else {
            replay::take(&mut pair.plain, line);
            replay::take(&mut pair.proved, line);
            if let Some(Line::Size { .. }) = parsed {
                pair.spared.clear();
            }
        }
    }
    Ok(())
}

// ---- Tables beyond the text ----

/// A pair of bridges, and requests on them.
struct Generator {
    random: Random,
    pair: Pair,
    /// A requester of each PE, or 0.
    requester_of: Vec<u64>,
    /// Interrupts that are asked for more often than others.
    frequent: [u64; 3],
}

impl Generator {
    fn new(mut random: Random, large: bool) -> Generator {
        let n = match random.below(4) {
            0 => random.pick(&[1, 63, 64, 65, 128, 129, 192, 193]),
            1 => random.pick(&[255, 256, 256]),
            _ => random.between(1, 256),
        };
        let m = match random.below(3) {
            0 => random.pick(&[0, 1, 31, MOST_INTERRUPTS - 1]),
            1 => MOST_INTERRUPTS,
            _ => random.below(MOST_INTERRUPTS + 1),
        };
        let r = match random.below(3) {
            0 => random.pick(&[1, 255, 256, 65_535]),
            1 => 65_536,
            _ => random.between(1, 65_536),
        };
        let words = match random.below(4) {
            _ if large => random.pick(&[1_048_575, 1_048_576]),
            0 => random.pick(&[0, 1, 511, 512, 513]),
            _ => random.between(1_024, 16_384),
        };
        let frequent = [random.below(m), random.below(m), m.saturating_sub(1)];
        let plain = Bridge::new(n, m, r, 0, words);
        let pair = Pair { proved: plain.clone(), plain, spared: Vec::new() };
        let mut generator = Generator { random, pair, requester_of: Vec::new(), frequent };
        generator.fill();
        generator.pair.plain.installed = generator.installed();
        generator.pair.proved = generator.pair.plain.clone();
        generator
    }

    /// The installed size of a bridge: one that table words or a DMA of it lead to, or any.
    fn installed(&mut self) -> u64 {
        let (asked, last) = self.dma_in_reach();
        let memory_bytes = 8 * self.pair.plain.memory.len() as u64;
        match self.random.below(8) {
            0 => self.random.pick(&[0, 1, 4_095, 4_096, INSTALLED, asked.words[3]]),
            1 => self.random.any(),
            2 => self.random.below(memory_bytes),
            3 => memory_bytes,
            4 => last.map_or(INSTALLED, |last| self.random.pick(&[last, last.saturating_add(1)])),
            _ => u64::MAX - self.random.below(2),
        }
    }

    /// A DMA, mostly one with a last byte in the system.
    fn dma_in_reach(&mut self) -> (Asked, Option<u64>) {
        let mut tries = 20;
        loop {
            let requester = self.requester();
            let asked = self.dma(requester, pe_of(&self.pair.plain, requester));
            let last = last_byte(&mut self.pair.plain, asked.request);
            tries -= 1;
            if last.is_some() || tries == 0 {
                return (asked, last);
            }
        }
    }

    // ---- Words of the tables ----

    fn fill(&mut self) {
        let (random, t) = (&mut self.random, &mut self.pair.plain);
        self.requester_of = seeded::fill(random, t);
        for words in t.state.chunks_exact_mut(STATE_WORDS) {
            words[0] = random.next() & !3;
            if random.percent(20) {
                words.fill_with(|| random.any());
                words[1] = random.pick(&[0, words[1], words[1] % 19]);
            }
        }
        // Mostly with bits above the fence.
        t.state[bridge::fence_place(t.n)] =
            random.next() & random.pick(&[0, !FENCE, !FENCE, u64::MAX]);
    }

    /// One number or length off its rule; the kinds are counted from 0.
    fn put_wrong_length(&mut self, kind: u64) {
        seeded::put_wrong_length(&mut self.random, &mut self.pair.plain, kind);
        self.pair.proved = self.pair.plain.clone();
    }

    /// A fifth of all words are any.
    fn put_any_words(&mut self) {
        let (random, t) = (&mut self.random, &mut self.pair.plain);
        for table in [
            &mut t.translation,
            &mut t.memory,
            &mut t.peers,
            &mut t.interrupts,
            &mut t.windows,
            &mut t.state,
        ] {
            for word in table {
                if random.percent(20) {
                    *word = random.any();
                }
            }
        }
        for table in [&mut t.requesters, &mut t.segments] {
            for word in table {
                if random.percent(20) {
                    *word = random.any() as u16;
                }
            }
        }
        self.pair.proved = self.pair.plain.clone();
    }

    // ---- Requests ----

    fn requester(&mut self) -> u64 {
        let r = self.pair.plain.r;
        self.random.mostly_below(r)
    }

    fn dma(&mut self, requester: u64, pe: u64) -> Asked {
        seeded::dma(&mut self.random, &self.pair.plain, requester, pe)
    }

    fn interrupt(&mut self) -> u64 {
        if self.random.percent(60) {
            return self.random.pick(&self.frequent);
        }
        let m = self.pair.plain.m;
        self.random.mostly_below(m)
    }

    /// A PE whose stop bit is set is mostly released first.
    fn release(&mut self, pe: u64, part: Part) -> Option<Asked> {
        let bit = if part == Part::Dma { DMA_STOP } else { MMIO_STOP };
        if stop_word(&self.pair.plain, pe) & bit != 0 && self.random.percent(80) {
            return Some(Asked::of(Request::Clear { pe, part }));
        }
        None
    }

    /// The next requests: one, or more where a PE is released first or the fence is cleared. A fence
    /// stands for a few requests.
    fn requests(&mut self) -> Vec<Asked> {
        let mut all = Vec::new();
        if fence_word(&self.pair.plain) & FENCE != 0 && self.random.percent(20) {
            all.push(Asked::of(Request::FenceClear));
        }
        let mut asked = match self.random.below(22) {
            0..=7 => {
                let requester = self.requester();
                let pe = pe_of(&self.pair.plain, requester);
                all.extend(self.release(pe, Part::Dma));
                self.dma(requester, pe)
            }
            8..=10 => {
                let number = self.interrupt();
                let pe = word(&self.pair.plain.interrupts, 4, number, 0);
                let requester = word(&self.requester_of, 1, pe, 0);
                all.extend(self.release(pe, Part::Dma));
                seeded::msi(&mut self.random, requester, number)
            }
            11..=13 => seeded::access(&mut self.random, &self.pair.plain),
            14 => Asked::of(Request::Error { requester: self.requester() }),
            15 => seeded::clear(&mut self.random, self.pair.plain.n),
            16 => Asked::of(Request::End { interrupt: self.interrupt() }),
            17 | 18 => {
                let priority = self.random.pick(&[0, 5, 254, 255, 255, 256, u64::MAX]);
                Asked::of(Request::Priority { interrupt: self.interrupt(), priority })
            }
            19 => Asked::of(Request::Fatal { requester: self.requester() }),
            20 => Asked::of(Request::FenceClear),
            _ => seeded::no_request(&mut self.random),
        };
        // The last two words of a request are not read.
        asked.words[6] = self.random.next();
        asked.words[7] = self.random.next();
        all.push(asked);
        all
    }
}

/// Bridges to each seed, beside the replay text.
const BRIDGES: u64 = 6;

/// Requests on one bridge, one by one and then in one list.
fn compare_bridge(seed: u64, number: u64, counts: &mut Counts) -> Result<(), String> {
    let large = number == 0 && seed % 3 == 0;
    let mut generator = Generator::new(Random(seed << 8 | number), large);
    match number {
        1 => generator.put_wrong_length(seed % WRONG_LENGTHS),
        2 => generator.put_any_words(),
        _ => {}
    }
    // Fewer where memory may be of full size.
    let limit = if large || number == 1 { 40 } else { 600 };
    let mut again = generator.pair.clone();
    let (mut all, mut answers) = (Vec::new(), Vec::new());
    while all.len() < limit {
        for asked in generator.requests() {
            let answer = generator.pair.ask(&asked, counts).map_err(|difference| {
                format!("bridge {}, request {}:\n{}", number, all.len() + 1, difference)
            })?;
            all.push(asked);
            answers.push(answer);
        }
    }
    again
        .ask_all(&all, &answers, &generator.pair)
        .map_err(|difference| format!("bridge {}, one list:\n{}", number, difference))?;
    compare_sizes(&mut generator, limit / 20, counts)
        .map_err(|difference| format!("bridge {}, {}", number, difference))
}

/// Some DMAs, each under installed sizes next to its last byte and far from it. The fence is cleared
/// before all, and the PE released before each.
fn compare_sizes(
    generator: &mut Generator,
    dmas: usize,
    counts: &mut Counts,
) -> Result<(), String> {
    generator.pair.ask(&Asked::of(Request::FenceClear), counts)?;
    for _ in 0..dmas {
        let (asked, last) = generator.dma_in_reach();
        let pe = pe_of(&generator.pair.plain, asked.words[1]);
        let release = Asked::of(Request::Clear { pe, part: Part::Dma });
        let last = last.unwrap_or(generator.random.any());
        let near = [last.saturating_sub(1), last, last.saturating_add(1), last.saturating_add(2)];
        let others = [0, 1, asked.words[3], INSTALLED, generator.random.any(), u64::MAX];
        for installed in near.into_iter().chain(others) {
            generator.pair.install(installed);
            for asked in [release, asked] {
                let told = |difference| format!("installed {:x}:\n{}", installed, difference);
                generator.pair.ask(&asked, counts).map_err(told)?;
            }
        }
    }
    Ok(())
}

// ---- The program ----

fn generated(generate: &str, seed: u64, lines: u64) -> Result<Vec<u8>, String> {
    let output = Command::new(generate)
        .args([seed.to_string(), lines.to_string()])
        .stderr(Stdio::inherit())
        .output()
        .map_err(|error| format!("{}: {}", generate, error))?;
    if output.status.success() {
        Ok(output.stdout)
    } else {
        Err(format!("{}: {}", generate, output.status))
    }
}

fn compare(generate: &str, seeds: u64, lines: u64) -> Result<(), String> {
    let (mut text, mut tables) = (Counts::default(), Counts::default());
    for seed in 1..=seeds {
        let of_seed = |difference| format!("seed {}, {}", seed, difference);
        let input = generated(generate, seed, lines)?;
        compare_text(&input, &mut text).map_err(of_seed)?;
        for number in 0..BRIDGES {
            compare_bridge(seed, number, &mut tables).map_err(of_seed)?;
        }
    }
    for (name, counts, of_text) in
        [("replay text", text, true), ("tables beyond it", tables, false)]
    {
        let least = counts.least(of_text);
        println!(
            "{}: {} inputs, {} requests, no difference; {} times or more: every answer and reason, a \
             peer served after a refusal ({}), a walk that stops at an upper word that is not valid \
             ({}) or leads to a misaligned table ({}), at a last word ({}), at a missing word ({}), a \
             word left over in an empty record ({}); 17 in a bypass and after 1, 2 and more words \
             ({:?}), in pages of 4 KiB to 256 MiB ({:?}), at the first byte not installed ({}) and at \
             byte 2^64 - 1 ({}); a pass to the last installed byte ({}), and 8 before 17 ({}); {}",
            name,
            seeds,
            counts.requests,
            least,
            counts.peers,
            counts.stopped_at[UPPER_INVALID],
            counts.stopped_at[UPPER_MISALIGNED],
            counts.stopped_at[LAST],
            counts.stopped_at[MISSING],
            counts.left_over,
            counts.above_after,
            counts.above_in,
            counts.first_above,
            counts.last_of_all,
            counts.last_installed,
            counts.forbidden_above,
            counts.fence.told(of_text)
        );
        if least < 100 {
            return Err(format!("{}: one of these came {} times, not 100", name, least));
        }
    }
    Ok(())
}

fn main() {
    let arguments: Vec<String> = std::env::args().skip(1).collect();
    let numbers: Vec<u64> = arguments.iter().skip(1).filter_map(|text| text.parse().ok()).collect();
    if arguments.len() != 3 || numbers.len() != 2 {
        eprintln!("usage: compare GENERATE SEEDS LINES");
        exit(2);
    }
    if let Err(difference) = compare(&arguments[0], numbers[0], numbers[1]) {
        println!("{}", difference);
        exit(1);
    }
}
