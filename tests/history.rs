// The exported function against the history of its requests. From a state of zeros, after every
// request, the whole state is the one that plain/history.rs tells from the requests and their answers;
// and a request of a PE that is released is answered as if no PE had ever been frozen.
//
//     history SEEDS [WRONG]
//     history names
//
// Each seed from 1 to SEEDS gives several lists, each on tables of its own, with one request to a call.
// On a difference it prints the seed, the list, the place in it, the request, its answer, and what was
// wanted and given; it then exits with 1. WRONG is the name of a history, or of a test for release,
// that is wrong in one way: it has to be found different. `names` prints these names.

#[path = "../plain/bridge.rs"]
#[allow(dead_code)]
mod bridge;
#[path = "../host/celltimber.rs"]
#[allow(dead_code)]
mod celltimber;
#[path = "../plain/history.rs"]
mod history;
mod owner_tables;
#[allow(dead_code)]
mod plain_words;
#[allow(dead_code)]
mod random;
#[allow(dead_code)]
mod seeded;

use bridge::{Bridge, Part, Request};
use celltimber::*;
use history::{History, Public, Step, PARTS};
use owner_tables::OwnerTables;
use plain_words::run_proved;
use random::Random;
use seeded::{fence_word, lists, pe_of, stop_word, word, Asked, WRONG_LENGTHS};
use std::mem;
use std::process::exit;

// ---- Wrong histories ----

/// A request that was answered, and what it did.
struct Told<'a> {
    before: &'a History,
    asked: &'a Asked,
    answer: &'a AnswerWords,
    owner: u64,
    step: Step,
}

/// What is taken for the right thing.
#[derive(Clone, Copy)]
struct Rule {
    name: &'static str,
    /// The steps that a request adds to the history.
    steps: fn(Told) -> Vec<Step>,
    is_released: fn(&History, u64) -> bool,
}

const RIGHT: Rule =
    Rule { name: "right", steps: |told| vec![told.step], is_released: History::is_released };

/// Each is wrong in one way.
const WRONG: [Rule; 12] = [
    Rule { name: "last_record", steps: last_record, ..RIGHT },
    Rule { name: "one_clear_clears_both", steps: one_clear_clears_both, ..RIGHT },
    Rule { name: "bit_clear_empties_record", steps: bit_clear_empties_record, ..RIGHT },
    Rule { name: "record_never_cleared", steps: record_never_cleared, ..RIGHT },
    Rule { name: "no_peers", steps: no_peers, ..RIGHT },
    Rule { name: "fatal_freezes", steps: fatal_freezes, ..RIGHT },
    Rule { name: "second_fatal_clears", steps: second_fatal_clears, ..RIGHT },
    Rule { name: "since_first_clear", steps: since_first_clear, ..RIGHT },
    Rule { name: "stopped_dma_freezes", steps: stopped_dma_freezes, ..RIGHT },
    Rule { name: "stopped_do_not_freeze", steps: stopped_do_not_freeze, ..RIGHT },
    Rule { name: "released_for_ever", is_released: released_for_ever, ..RIGHT },
    Rule { name: "released_by_last_clear", is_released: released_by_last_clear, ..RIGHT },
];

/// The record is that of the last freeze: each freeze empties it first.
fn last_record(told: Told) -> Vec<Step> {
    let mut steps = Vec::new();
    if let Step::Freeze(frozen) = &told.step {
        steps.extend(frozen.iter().map(|&(pe, _)| Step::Clear { pe, part: Part::Record }));
    }
    steps.push(told.step);
    steps
}

fn one_clear_clears_both(told: Told) -> Vec<Step> {
    match told.step {
        Step::Clear { pe, part: Part::Mmio | Part::Dma } => {
            vec![Step::Clear { pe, part: Part::Mmio }, Step::Clear { pe, part: Part::Dma }]
        }
        step => vec![step],
    }
}

/// A clear of a stop bit empties the record too.
fn bit_clear_empties_record(told: Told) -> Vec<Step> {
    match told.step {
        Step::Clear { pe, part } => {
            vec![Step::Clear { pe, part }, Step::Clear { pe, part: Part::Record }]
        }
        step => vec![step],
    }
}

/// A clear of the record does not count.
fn record_never_cleared(told: Told) -> Vec<Step> {
    match told.step {
        Step::Clear { part: Part::Record, .. } => Vec::new(),
        step => vec![step],
    }
}

fn no_peers(told: Told) -> Vec<Step> {
    match told.step {
        Step::Freeze(frozen) => vec![Step::Freeze(frozen[..1].to_vec())],
        step => vec![step],
    }
}

fn fatal_freezes(told: Told) -> Vec<Step> {
    match told.step {
        Step::Fence => {
            let record = [REASON_ERROR_MESSAGE, told.asked.words[1], 0];
            vec![Step::Fence, Step::Freeze(vec![(told.owner, record)])]
        }
        step => vec![step],
    }
}

/// A fatal message clears a fence that is set.
fn second_fatal_clears(told: Told) -> Vec<Step> {
    match told.step {
        Step::Fence if told.before.fence_word() != 0 => vec![Step::FenceClear],
        step => vec![step],
    }
}

/// The first clear of a part counts, and no later one.
fn since_first_clear(told: Told) -> Vec<Step> {
    match told.step {
        Step::Clear { pe, part } if told.before.last_clear(pe, part).is_some() => Vec::new(),
        step => vec![step],
    }
}

/// A refusal with reason 4 is a freeze.
fn stopped_dma_freezes(told: Told) -> Vec<Step> {
    match told.answer[AT_REASON] {
        REASON_DMA_STOPPED => {
            let record = [REASON_DMA_STOPPED, told.asked.words[3], 0];
            vec![Step::Freeze(vec![(told.owner, record)])]
        }
        _ => vec![told.step],
    }
}

/// A freeze of a PE that is stopped does not count.
fn stopped_do_not_freeze(told: Told) -> Vec<Step> {
    match told.step {
        Step::Freeze(mut frozen) => {
            frozen.retain(|&(pe, _)| told.before.words_of(pe)[0] == 0);
            vec![Step::Freeze(frozen)]
        }
        step => vec![step],
    }
}

/// All three parts were cleared once, whatever has frozen the PE since.
fn released_for_ever(history: &History, pe: u64) -> bool {
    PARTS.iter().all(|&part| history.last_clear(pe, part).is_some())
}

/// A freeze between the three clears does not count, only one after the last of them.
fn released_by_last_clear(history: &History, pe: u64) -> bool {
    let last = PARTS.map(|part| history.last_clear(pe, part)).into_iter().flatten().max();
    released_for_ever(history, pe) && history.freeze_from(pe, last.unwrap_or(0)).is_none()
}

// ---- Counts ----

/// How often each thing came.
#[derive(Default)]
struct Counts {
    lists: u64,
    requests: u64,
    names: [u64; 7],
    reasons: [u64; 19],
    /// Freezes of the failing PE by each reason of `FREEZING`.
    failing: [u64; FREEZING.len()],
    /// Freezes by 8 at an upper word, by 8 at a last word, and by 15, at a word that is not at 0.
    with_word: [u64; 3],
    /// Freezes of peers, by the word of the vector that lists them.
    peers: [u64; 4],
    /// Freezes of a failing PE and of a peer: where a stop bit is set, where it is and the record is
    /// empty, where there is a record, and where there is one and a stop bit is clear.
    again: [[u64; 4]; 2],
    /// Error messages of a PE that lists itself, and of one that lists PE N or one above.
    lists_itself: u64,
    lists_above: u64,
    /// Clears that change a word, in the order of `PARTS`; and clears of a stop bit that leave the other
    /// one set.
    cleared: [u64; 3],
    one_left: [u64; 2],
    /// Releases by the order of the last three clears, and those with other requests between them.
    orders: [u64; ORDERS.len()],
    apart: u64,
    /// Requests of PEs that were frozen and are released, by `kind_released`.
    released: [u64; KINDS_RELEASED],
    /// Requests of PEs that are not released, answered otherwise than if nobody had been frozen.
    not_released: u64,
    /// The fence set, cleared, and set where it is set.
    fence: [u64; 3],
}

const FREEZING: [u64; 8] = [5, 6, 7, 8, 9, 12, 15, 17];

/// The orders of three clears, by places in `PARTS`.
const ORDERS: [[usize; 3]; 6] = [[0, 1, 2], [0, 2, 1], [1, 0, 2], [1, 2, 0], [2, 0, 1], [2, 1, 0]];

const KINDS_RELEASED: usize = 12;

/// A pass of a DMA, of a load and of a store; an MSI presented, and held; a refusal that freezes, and
/// one that does not; a fenced load, and store; an error message, a fatal one, and firmware.
fn kind_released(request: Request, answer: &AnswerWords, step: &Step) -> usize {
    match (request, answer[AT_NAME]) {
        (Request::Dma { .. }, PASS) => 0,
        (Request::Load { .. }, PASS) => 1,
        (Request::Store { .. }, PASS) => 2,
        (Request::Dma { .. }, MSI) => 3,
        (Request::Dma { .. }, HELD) => 4,
        (_, REFUSE) if matches!(step, Step::Freeze(_)) => 5,
        (_, REFUSE) => 6,
        (_, ONES) => 7,
        (_, DROP) => 8,
        (Request::Error { .. }, _) => 9,
        (Request::Fatal { .. }, _) => 10,
        _ => 11,
    }
}

impl Counts {
    /// A request that was answered; `tables` are those after it, and `state` is the state before it.
    fn add(&mut self, tables: &Bridge, state: &[u64], told: &Told) {
        let answer = told.answer;
        self.requests += 1;
        self.names[answer[AT_NAME] as usize] += 1;
        self.reasons[answer[AT_REASON] as usize] += 1;
        match &told.step {
            Step::Freeze(frozen) => {
                let (failing, [reason, ..]) = frozen[0];
                if let Some(place) = FREEZING.iter().position(|&freezing| freezing == reason) {
                    self.failing[place] += 1;
                }
                if let Some(kind) = kind_of_word(tables, failing, told) {
                    self.with_word[kind] += 1;
                }
                for (k, &(pe, _)) in frozen.iter().enumerate() {
                    self.add_freeze(&state[STATE_WORDS * pe as usize..], usize::from(k > 0));
                    self.peers[pe as usize / 64] += u64::from(k > 0);
                }
                if reason == REASON_ERROR_MESSAGE {
                    let above = (tables.n..MOST_PES).any(|k| lists(tables, failing, k));
                    self.lists_itself += u64::from(lists(tables, failing, failing));
                    self.lists_above += u64::from(above);
                }
            }
            Step::Clear { pe, part } => {
                let kind = PARTS.iter().position(|of| of == part).unwrap_or(0);
                self.cleared[kind] += u64::from(state != tables.state);
                if kind < 2 && state != tables.state {
                    self.one_left[kind] += u64::from(stop_word(tables, *pe) != 0);
                }
            }
            Step::Fence if state == tables.state => self.fence[2] += 1,
            Step::Fence => self.fence[0] += 1,
            Step::FenceClear => self.fence[1] += u64::from(state != tables.state),
            Step::Nothing => {}
        }
    }

    /// A freeze of a PE whose words were these.
    fn add_freeze(&mut self, words: &[u64], as_peer: usize) {
        let (stopped, recorded) = (words[0] != 0, words[1] != 0);
        let still = words[0] != MMIO_STOP | DMA_STOP;
        let kinds = [stopped, stopped && !recorded, recorded, recorded && still];
        for (count, kind) in self.again[as_peer].iter_mut().zip(kinds) {
            *count += u64::from(kind);
        }
    }

    /// A clear that has released a PE: the order of its last clears.
    fn add_release(&mut self, history: &History, pe: u64) {
        let places = PARTS.map(|part| history.last_clear(pe, part));
        let mut order = [0, 1, 2];
        order.sort_by_key(|&k| places[k]);
        if let Some(place) = ORDERS.iter().position(|&of| of == order) {
            self.orders[place] += 1;
        }
        let [first, _, last] = order.map(|k| places[k].unwrap_or(0));
        self.apart += u64::from(last - first > 2);
    }

    /// The least of these counts.
    fn least(&self) -> u64 {
        let refused = (1..=11).chain([14, 15, 17, 18]).map(|reason| self.reasons[reason]);
        let freezes = self.failing.into_iter().chain(self.with_word).chain(self.peers);
        let clears = self.cleared.into_iter().chain(self.one_left).chain(self.orders);
        let others = [self.lists_itself, self.lists_above, self.apart, self.not_released];
        let all = self.names.into_iter().chain(refused).chain(freezes).chain(clears);
        let again = self.again.into_iter().flatten();
        let rest = others.into_iter().chain(again).chain(self.released).chain(self.fence);
        all.chain(rest).min().unwrap_or(0)
    }
}

/// The place in `with_word` of a freeze of a PE by a table word.
fn kind_of_word(tables: &Bridge, pe: u64, told: &Told) -> Option<usize> {
    let second = told.asked.words[3] >> 59 & 1;
    let levels = word(&tables.translation, ENTRY_WORDS as u64, pe, 4 * second + 1);
    match (told.answer[AT_REASON], told.answer[AT_WORD]) {
        (_, 0) => None,
        (REASON_OUTSIDE_MEMORY, _) => Some(2),
        _ => Some(usize::from(told.answer[AT_WORDS] == levels)),
    }
}

// ---- Lists ----

/// Tables with a state that began with zeros, the history of their requests, and requests on them.
struct Run {
    random: Random,
    tables: Bridge,
    history: History,
    /// The PEs that most requests are of. Requester k is the k-th of them.
    few: Vec<u64>,
    /// A number or a length is wrong.
    wrong_length: bool,
}

impl Run {
    fn new(mut random: Random, large: bool) -> Run {
        let n = match large {
            true => random.pick(&[63, 64, 65, 128, 129, 192, 193, 255, 256, 256]),
            false => random.between(1, 6),
        };
        let m = random.pick(&[0, 1, 31, 32, 64, 64]);
        let r = random.pick(&[8, 8, 9, 64, 64, 65_536]);
        let words = match random.below(10) {
            0 => random.pick(&[0, 1, 511, 512, 513]),
            _ => random.between(1_024, 8_192),
        };
        let sizes = [random.any(), 4 * words, 8 * words, u64::MAX, u64::MAX];
        let installed = random.pick(&sizes);
        let mut tables = Bridge::new(n, m, r, installed, words);
        seeded::fill(&mut random, &mut tables);
        let few = few_of(&mut random, n);
        let history = History::default();
        let mut run = Run { random, tables, history, few, wrong_length: false };
        run.favour_few();
        run
    }

    /// One number or length off its rule.
    fn put_wrong_length(&mut self, kind: u64) {
        seeded::put_wrong_length(&mut self.random, &mut self.tables, kind);
        self.wrong_length = true;
    }

    /// The few PEs have requesters, peers, interrupts and windows.
    fn favour_few(&mut self) {
        let (random, t, few) = (&mut self.random, &mut self.tables, &self.few);
        for (k, &pe) in few.iter().enumerate() {
            t.requesters[k] = pe as u16;
            for &other in few.iter().filter(|_| random.percent(40)) {
                t.peers[(4 * pe + other / 64) as usize] |= 1 << (other % 64);
            }
        }
        for record in t.interrupts.chunks_mut(INTERRUPT_WORDS) {
            if random.percent(80) {
                record[0] = random.pick(few);
            }
        }
        for segment in &mut t.segments {
            if random.percent(80) {
                *segment = random.pick(few) as u16;
            }
        }
        for window in t.windows[M32_WORDS..].chunks_mut(M64_WORDS) {
            if random.percent(80) {
                window[3] = random.pick(few);
            }
        }
    }

    // ---- Requests ----

    /// The next requests: one, or some that belong together. A fence stands for a few requests.
    fn requests(&mut self) -> Vec<Asked> {
        let pe = self.random.pick(&self.few);
        let fenced = fence_word(&self.tables) & FENCE != 0;
        let mut all = match self.random.below(32) {
            _ if fenced && self.random.percent(30) => vec![Asked::of(Request::FenceClear)],
            0..=13 => self.let_through(pe),
            14..=18 => vec![self.clear(pe)],
            19..=22 => self.release(pe),
            23..=25 => vec![self.anybodys()],
            26 => vec![seeded::clear(&mut self.random, self.tables.n)],
            27 => vec![Asked::of(Request::End { interrupt: self.interrupt() })],
            28 => {
                let priority = self.random.pick(&[0, 5, 254, 255, 256]);
                vec![Asked::of(Request::Priority { interrupt: self.interrupt(), priority })]
            }
            29 => vec![Asked::of(Request::Fatal { requester: self.requester() })],
            30 => vec![Asked::of(Request::FenceClear)],
            _ => vec![seeded::no_request(&mut self.random)],
        };
        // The last two words of a request are not read.
        for asked in &mut all {
            asked.words[6] = self.random.next();
            asked.words[7] = self.random.next();
        }
        all
    }

    fn requester(&mut self) -> u64 {
        self.random.mostly_below(self.tables.r)
    }

    fn interrupt(&mut self) -> u64 {
        self.random.mostly_below(self.tables.m)
    }

    /// A clear of one part of a PE.
    fn clear(&mut self, pe: u64) -> Asked {
        Asked::of(Request::Clear { pe, part: self.random.pick(&PARTS) })
    }

    /// A request of one of the few PEs, often after a clear of the stop bit that would stop it.
    fn let_through(&mut self, pe: u64) -> Vec<Asked> {
        let asked = self.own(pe);
        let (part, bit) = match asked.request {
            Request::Dma { .. } => (Part::Dma, DMA_STOP),
            _ => (Part::Mmio, MMIO_STOP),
        };
        let is_set = stop_word(&self.tables, pe) & bit != 0;
        let clear = Asked::of(Request::Clear { pe, part });
        let first = (is_set && self.random.percent(50)).then_some(clear);
        first.into_iter().chain([asked]).collect()
    }

    /// All three clears of a PE, often with requests of others between them, and then a request of it.
    fn release(&mut self, pe: u64) -> Vec<Asked> {
        let mut all = Vec::new();
        for k in self.random.pick(&ORDERS) {
            all.push(Asked::of(Request::Clear { pe, part: PARTS[k] }));
            let other = self.random.pick(&self.few);
            if other != pe && self.random.percent(30) {
                all.push(self.own(other));
            }
        }
        all.push(self.own(pe));
        all
    }

    /// A request of one of the few PEs.
    fn own(&mut self, pe: u64) -> Asked {
        let requester = self.few.iter().position(|&of| of == pe).unwrap_or(0) as u64;
        let (random, t) = (&mut self.random, &self.tables);
        match random.below(10) {
            0..=4 => seeded::dma(random, t, requester, pe),
            5 | 6 => {
                let number = random.mostly_below(t.m);
                seeded::msi(random, requester, number)
            }
            7 | 8 => {
                let mut asked = seeded::access(random, t);
                for _ in 0..20 {
                    if OwnerTables::of(t).owner(&asked.words) == pe {
                        break;
                    }
                    asked = seeded::access(random, t);
                }
                asked
            }
            _ => Asked::of(Request::Error { requester }),
        }
    }

    /// A request of any requester, or a load or store of any window.
    fn anybodys(&mut self) -> Asked {
        let requester = self.requester();
        let pe = pe_of(&self.tables, requester);
        match self.random.below(4) {
            0 => Asked::of(Request::Error { requester }),
            1 => seeded::access(&mut self.random, &self.tables),
            _ => seeded::dma(&mut self.random, &self.tables, requester, pe),
        }
    }

    // ---- What is compared ----

    fn ask(&mut self, asked: &Asked, rule: Rule, counts: &mut Counts) -> Result<(), String> {
        let owner = OwnerTables::of(&self.tables).owner(&asked.words);
        let unfrozen = self.unfrozen(&asked.words);
        let state = self.tables.state.clone();
        let answer = answered(&mut self.tables, &asked.words);
        let released = (rule.is_released)(&self.history, owner);
        let different = |difference| {
            format!("request {:x?}\nanswer  {:x?}\n{}", asked.words, answer, difference)
        };
        if self.wrong_length {
            self.is_refused(&answer).map_err(different)?;
        }
        if released && answer != unfrozen {
            return Err(different(format!(
                "PE {:x} is released: wanted {:x?}, given {:x?}",
                owner, unfrozen, answer
            )));
        }

        let t = &self.tables;
        let public = Public { n: t.n, requesters: &t.requesters, peers: &t.peers };
        let step = Step::of(&public, asked.request, &answer);
        let told = Told { before: &self.history, asked, answer: &answer, owner, step };
        counts.add(t, &state, &told);
        if released && self.history.freeze_from(owner, 0).is_some() {
            counts.released[kind_released(asked.request, &answer, &told.step)] += 1;
        }
        counts.not_released += u64::from(!released && answer != unfrozen);
        let steps = (rule.steps)(told);
        self.history.steps.extend(steps);
        if !released && self.history.is_released(owner) {
            counts.add_release(&self.history, owner);
        }
        self.same_state().map_err(different)
    }

    /// The answer to a request if no PE had ever been frozen: over a state in which the words of all PEs
    /// are 0, with the fence word and all other tables as they are. The tables stay as they are.
    fn unfrozen(&mut self, words: &RequestWords) -> AnswerWords {
        let t = &mut self.tables;
        let mut zeros = vec![0; t.state.len()];
        if let (Some(word), Some(fence)) = (zeros.last_mut(), t.state.last()) {
            *word = *fence;
        }
        let state = mem::replace(&mut t.state, zeros);
        let interrupts = t.interrupts.clone();
        let answer = answered(t, words);
        t.state = state;
        t.interrupts = interrupts;
        answer
    }

    /// Where a number or a length is wrong, every answer is a refusal with reason 1, and the state stays
    /// zeros.
    fn is_refused(&self, answer: &AnswerWords) -> Result<(), String> {
        let wanted = [REFUSE, REASON_TABLE_LENGTH, 0, 0, 0, 0, 0, 0];
        if *answer != wanted {
            return Err(format!("a wrong number or length: wanted {:x?}", wanted));
        }
        match self.tables.state.iter().position(|&word| word != 0) {
            None => Ok(()),
            Some(place) => Err(format!(
                "a wrong number or length: state {:x}: wanted 0, given {:x}",
                place, self.tables.state[place]
            )),
        }
    }

    /// The whole state is that of the history. Where a number or a length is wrong, its length is any.
    fn same_state(&self) -> Result<(), String> {
        let (n, given) = (self.tables.n.min(MOST_PES), &self.tables.state);
        let mut wanted = self.history.state(n);
        if self.wrong_length {
            wanted.resize(given.len(), 0);
        }
        if wanted.len() != given.len() {
            return Err(format!("state: wanted {} words, given {}", wanted.len(), given.len()));
        }
        // The words of each PE, and then the fence word alone.
        let mut pairs = wanted.chunks(STATE_WORDS).zip(given.chunks(STATE_WORDS)).zip(0..);
        match pairs.find(|((wanted, given), _)| wanted != given) {
            None => Ok(()),
            Some(((wanted, given), pe)) => {
                let of = if pe < n { format!("PE {:x}", pe) } else { "fence".to_string() };
                Err(format!("{}: wanted {:x?}, given {:x?}", of, wanted, given))
            }
        }
    }
}

/// The PEs that most requests are of: all, or one to each word of a peer vector and the last one.
fn few_of(random: &mut Random, n: u64) -> Vec<u64> {
    if n <= 6 {
        return (0..n).collect();
    }
    let one = |first: u64| random.between(first, n.min(first + 64) - 1);
    let mut few: Vec<u64> = (0..n).step_by(64).map(one).collect();
    few.push(n - 1);
    few.dedup();
    few
}

fn answered(tables: &mut Bridge, words: &RequestWords) -> AnswerWords {
    let mut answer = [u64::MAX; ANSWER_WORDS];
    assert_eq!(run_proved(tables, words, &mut answer), 1, "the request is not served");
    answer
}

// ---- The program ----

/// Lists to each seed. The first has many PEs, the second a wrong number or length.
const LISTS: u64 = 6;

fn run_list(seed: u64, number: u64, rule: Rule, counts: &mut Counts) -> Result<(), String> {
    let large = number == 0;
    let mut run = Run::new(Random(seed << 8 | number), large);
    let limit = match number {
        0 => 300,
        1 => 40,
        _ => 600,
    };
    if number == 1 {
        run.put_wrong_length(seed % WRONG_LENGTHS);
    }
    counts.lists += 1;
    let mut place = 0;
    while place < limit {
        for asked in run.requests() {
            place += 1;
            run.ask(&asked, rule, counts).map_err(|difference| {
                format!("seed {}, list {}, request {}:\n{}", seed, number, place, difference)
            })?;
        }
    }
    Ok(())
}

fn run_all(seeds: u64, rule: Rule) -> Result<Counts, String> {
    let mut counts = Counts::default();
    for seed in 1..=seeds {
        for number in 0..LISTS {
            run_list(seed, number, rule, &mut counts)?;
        }
    }
    Ok(counts)
}

fn main() {
    let arguments: Vec<String> = std::env::args().skip(1).collect();
    if arguments == ["names"] {
        for rule in WRONG {
            println!("{}", rule.name);
        }
        return;
    }
    let seeds = arguments.first().and_then(|text| text.parse().ok());
    let rule = match &arguments[..] {
        [_] => Some(RIGHT),
        [_, name] => WRONG.into_iter().find(|rule| rule.name == name),
        _ => None,
    };
    let (Some(seeds), Some(rule)) = (seeds, rule) else {
        eprintln!("usage: history SEEDS [WRONG], or history names");
        exit(2);
    };
    let counts = run_all(seeds, rule).unwrap_or_else(|difference| {
        println!("{}", difference);
        exit(1)
    });
    let least = counts.least();
    println!(
        "{} lists, {} requests, no difference; {} times or more: every answer and reason; freezes by \
         {:?} ({:?}), at an upper word, a last word and a missing word ({:?}), as a peer by each word \
         of the vector ({:?}); a freeze of a PE that is stopped, is stopped with an empty record, has a \
         record, has one and is not wholly stopped, as the failing PE and as a peer ({:?}); error \
         messages of a PE that lists itself ({}), and PE N or above ({}); clears of the MMIO bit, the \
         DMA bit and the record that change a word ({:?}), and leave the other bit ({:?}); releases in \
         each order of clears ({:?}), with other requests between them ({}); of a released PE a pass of \
         a DMA, a load and a store, an MSI presented and held, a refusal that freezes and one that \
         does not, a fenced load and store, an error message, a fatal one, firmware ({:?}); an answer \
         of a PE that is not released, other than if nobody had been frozen ({}); the fence set, \
         cleared, and set where it is set ({:?})",
        counts.lists,
        counts.requests,
        least,
        FREEZING,
        counts.failing,
        counts.with_word,
        counts.peers,
        counts.again,
        counts.lists_itself,
        counts.lists_above,
        counts.cleared,
        counts.one_left,
        counts.orders,
        counts.apart,
        counts.released,
        counts.not_released,
        counts.fence
    );
    if least < 100 {
        println!("one of these came {} times, not 100", least);
        exit(1);
    }
}
