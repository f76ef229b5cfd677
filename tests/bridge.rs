// The exported function on figures worked out here: the cases, tables of full size and one past
// each limit, the geometries that Linux programs, and lists of requests. Built by rustc with
// --test; each test is a group of checks. Every check compares the whole answer and every word of
// every table.

#[path = "../host/celltimber.rs"]
#[allow(dead_code)]
mod celltimber;

use celltimber::*;

// ---- Answers ----

fn pass(address: u64, pe: u64, words: u64) -> AnswerWords {
    [PASS, 0, address, words, pe, 0, 0, 0]
}

fn msi(number: u64, server: u64, priority: u64) -> AnswerWords {
    [MSI, 0, number, 0, 0, server, priority, 0]
}

fn held(number: u64) -> AnswerWords {
    [HELD, 0, number, 0, 0, 0, 0, 0]
}

fn ones(value: u64) -> AnswerWords {
    [ONES, 11, value, 0, 0, 0, 0, 0]
}

fn dropped() -> AnswerWords {
    [DROP, 11, 0, 0, 0, 0, 0, 0]
}

fn fenced_ones(value: u64) -> AnswerWords {
    [ONES, 18, value, 0, 0, 0, 0, 0]
}

fn fenced_drop() -> AnswerWords {
    [DROP, 18, 0, 0, 0, 0, 0, 0]
}

fn refuse(reason: u64, words: u64) -> AnswerWords {
    [REFUSE, reason, 0, words, 0, 0, 0, 0]
}

/// The walk stopped at this word.
fn refuse_at(word: u64, reason: u64, words: u64) -> AnswerWords {
    [REFUSE, reason, 0, words, 0, 0, 0, word]
}

fn done() -> AnswerWords {
    [DONE, 0, 0, 0, 0, 0, 0, 0]
}

// ---- Tables ----

const FIRST: usize = 0;
const SECOND: usize = 1;

/// The installed size of the cases and of the replay program: 4 GiB.
const GIB_4: u64 = 0x1_0000_0000;

/// Stands in answer words before a call.
const UNWRITTEN: u64 = 0x5555_AAAA_5555_AAAA;

#[derive(Clone)]
struct Tables {
    pes: u64,
    interrupt_count: u64,
    requester_count: u64,
    installed: u64,
    requesters: Vec<u16>,
    entries: Vec<u64>,
    memory: Vec<u64>,
    peers: Vec<u64>,
    interrupts: Vec<u64>,
    windows: Vec<u64>,
    segments: Vec<u16>,
    state: Vec<u64>,
}

/// A word that a request changes: its index and its value afterwards.
#[derive(Clone, Copy)]
enum Change {
    State(usize, u64),
    Interrupt(usize, u64),
}
use Change::{Interrupt, State};

/// A PE whose words were 0 is frozen: both stop bits, then the error record.
fn frozen(pe: usize, reason: u64, value: u64, word: u64) -> [Change; 4] {
    let at = STATE_WORDS * pe;
    [State(at, 3), State(at + 1, reason), State(at + 2, value), State(at + 3, word)]
}

impl Tables {
    /// Tables of these sizes with every word 0. The installed size is the largest.
    fn new(n: usize, m: usize, r: usize, memory_words: usize) -> Tables {
        let mut tables = Tables {
            pes: 0,
            interrupt_count: 0,
            requester_count: 0,
            installed: u64::MAX,
            requesters: Vec::new(),
            entries: Vec::new(),
            memory: Vec::new(),
            peers: Vec::new(),
            interrupts: Vec::new(),
            windows: vec![0; 67],
            segments: vec![0; 256],
            state: Vec::new(),
        };
        tables.resize(n, m, r, memory_words);
        tables
    }

    /// Other sizes, with the lengths that agree; a further word is 0. The fence word stays the last.
    fn resize(&mut self, n: usize, m: usize, r: usize, memory_words: usize) {
        self.pes = n as u64;
        self.interrupt_count = m as u64;
        self.requester_count = r as u64;
        self.requesters.resize(r, 0);
        self.entries.resize(8 * n, 0);
        self.memory.resize(memory_words, 0);
        self.peers.resize(4 * n, 0);
        self.interrupts.resize(4 * m, 0);
        let fence = self.state.pop().unwrap_or(0);
        self.state.resize(STATE_WORDS * n, 0);
        self.state.push(fence);
    }

    /// The fence word.
    fn fence(&mut self) -> &mut u64 {
        &mut self.state[STATE_WORDS * self.pes as usize]
    }

    fn set_entry(&mut self, pe: usize, record: usize, words: [u64; 4]) {
        let at = 8 * pe + 4 * record;
        self.entries[at..at + 4].copy_from_slice(&words);
    }

    /// Sets the memory word at a system address.
    fn set_word(&mut self, address: usize, word: u64) {
        assert_eq!(address % 8, 0);
        self.memory[address / 8] = word;
    }

    fn set_interrupt(&mut self, number: usize, words: [u64; 4]) {
        self.interrupts[4 * number..4 * number + 4].copy_from_slice(&words);
    }

    /// Sets the M32 window: base, size, PCI base.
    fn set_m32(&mut self, words: [u64; 3]) {
        self.windows[..3].copy_from_slice(&words);
    }

    /// Sets an M64 window: base, size, mode, PE.
    fn set_m64(&mut self, number: usize, words: [u64; 4]) {
        let at = 3 + 4 * number;
        self.windows[at..at + 4].copy_from_slice(&words);
    }

    fn serve(&mut self, requests: &[u64], answers: &mut [u64]) -> usize {
        run(
            self.pes,
            self.interrupt_count,
            self.requester_count,
            self.installed,
            &self.requesters,
            &self.entries,
            &self.memory,
            &self.peers,
            &mut self.interrupts,
            &self.windows,
            &self.segments,
            &mut self.state,
            requests,
            answers,
        )
    }

    /// A list of requests in one call: these answers, these words changed and all others kept.
    #[track_caller]
    fn check_list(
        &mut self,
        requests: &[RequestWords],
        answers: &[AnswerWords],
        changes: &[Change],
    ) {
        let mut after = self.clone();
        for &change in changes {
            match change {
                State(index, value) => after.state[index] = value,
                Interrupt(index, value) => after.interrupts[index] = value,
            }
        }
        let mut given = vec![UNWRITTEN; ANSWER_WORDS * answers.len()];
        let count = self.serve(&requests.concat(), &mut given);
        assert_eq!(count, requests.len(), "requests served");
        for (k, (request, answer)) in requests.iter().zip(answers).enumerate() {
            let given = &given[ANSWER_WORDS * k..ANSWER_WORDS * (k + 1)];
            assert!(
                given == answer,
                "request {} {:x?}: answer {:x?}, not {:x?}",
                k,
                request,
                given,
                answer
            );
        }
        self.check_same(&after);
    }

    /// Requests with their answers, in one call and one to a call: the words left are the same.
    #[track_caller]
    fn check_both_ways(&mut self, served: &[(RequestWords, AnswerWords)], changes: &[Change]) {
        let (requests, answers): (Vec<_>, Vec<_>) = served.iter().copied().unzip();
        let mut one_by_one = self.clone();
        self.check_list(&requests, &answers, changes);
        for (request, answer) in served {
            let mut given = [UNWRITTEN; ANSWER_WORDS];
            assert_eq!(one_by_one.serve(request, &mut given), 1);
            assert_eq!(given, *answer);
        }
        one_by_one.check_same(self);
    }

    #[track_caller]
    fn check(&mut self, request: RequestWords, answer: AnswerWords, changes: &[Change]) {
        self.check_list(&[request], &[answer], changes);
    }

    /// No word changes.
    #[track_caller]
    fn keeps(&mut self, request: RequestWords, answer: AnswerWords) {
        self.check(request, answer, &[]);
    }

    /// PEs whose words were 0 are frozen, with these reasons and values and the answer's last word;
    /// nothing else changes.
    #[track_caller]
    fn freezes(&mut self, request: RequestWords, answer: AnswerWords, pes: &[(usize, u64, u64)]) {
        let of_pe = |&(pe, reason, value)| frozen(pe, reason, value, answer[AT_WORD]);
        let changes: Vec<Change> = pes.iter().flat_map(of_pe).collect();
        self.check(request, answer, &changes);
    }

    /// The same on a copy, so that the next check finds the tables as they were.
    #[track_caller]
    fn would_freeze(&self, request: RequestWords, answer: AnswerWords, pe: (usize, u64, u64)) {
        self.clone().freezes(request, answer, &[pe]);
    }

    #[track_caller]
    fn check_same(&self, other: &Tables) {
        same("requesters", &self.requesters, &other.requesters);
        same("translation entries", &self.entries, &other.entries);
        same("memory", &self.memory, &other.memory);
        same("peers", &self.peers, &other.peers);
        same("interrupts", &self.interrupts, &other.interrupts);
        same("windows", &self.windows, &other.windows);
        same("segments", &self.segments, &other.segments);
        same("state", &self.state, &other.state);
    }
}

#[track_caller]
fn same<T: PartialEq + std::fmt::LowerHex>(name: &str, given: &[T], wanted: &[T]) {
    assert_eq!(given.len(), wanted.len(), "length of {}", name);
    if given == wanted {
        return;
    }
    for (k, (given, wanted)) in given.iter().zip(wanted).enumerate() {
        assert!(given == wanted, "word {} of {}: {:x}, not {:x}", k, name, given, wanted);
    }
}

// ---- Cases A to J ----

/// N=4, requester 5 is PE 2, its first record is 0x2000, 1, 1, 1. Memory is 32 KiB; 4 GiB are
/// installed.
fn of_the_cases() -> Tables {
    let mut t = Tables::new(4, 8, 8, 0x1000);
    t.installed = GIB_4;
    t.requesters[5] = 2;
    t.set_entry(2, FIRST, [0x2000, 1, 1, 1]);
    t
}

#[test]
fn case_a() {
    let mut t = of_the_cases();
    t.set_word(0x2018, 0x1234_5003);
    t.keeps(dma(5, READ, 0x3ABC, 4, 0), pass(0x1234_5ABC, 2, 1));
}

#[test]
fn case_b() {
    let mut t = of_the_cases();
    t.set_word(0x2FF8, 0x7777_7002);
    t.keeps(dma(5, WRITE, 0x1F_FFFF, 1, 0), pass(0x7777_7FFF, 2, 1));
    t.freezes(dma(5, READ, 0x1F_FFFF, 1, 0), refuse_at(0x2FF8, 8, 1), &[(2, 8, 0x1F_FFFF)]);
    t.keeps(dma(5, WRITE, 0x1F_FFFF, 1, 0), refuse(4, 0));
}

#[test]
fn case_c() {
    let mut t = of_the_cases();
    t.freezes(dma(5, READ, 0x20_0000, 1, 0), refuse(7, 0), &[(2, 7, 0x20_0000)]);
}

#[test]
fn case_d() {
    let mut t = of_the_cases();
    t.set_word(0x2018, 0x1234_5003);
    t.keeps(dma(5, READ, 0x3FFF, 2, 0), refuse(2, 0));
    t.keeps(dma(5, READ, 0x3FFF, 1, 0), pass(0x1234_5FFF, 2, 1));
    t.keeps(dma(5, READ, 0x3000, 0, 0), refuse(2, 0));
    t.keeps(dma(5, READ, 0x3000, 4_097, 0), refuse(2, 0));
    t.keeps(dma(5, READ, 0x3000, 4_096, 0), pass(0x1234_5000, 2, 1));
}

#[test]
fn case_e() {
    let mut t = of_the_cases();
    t.set_entry(2, FIRST, [0x2000, 1, 1, 5]);
    t.set_word(0x2000, 0x1234_5003);
    t.keeps(dma(5, READ, 0xABCD, 1, 0), pass(0x1234_ABCD, 2, 1));
}

#[test]
fn case_f() {
    let mut t = of_the_cases();
    t.set_entry(2, FIRST, [0x2000, 2, 1, 1]);
    t.set_word(0x2010, 0x5001);
    t.set_word(0x5018, 0x9003);
    t.keeps(dma(5, WRITE, 0x40_3010, 4, 0), pass(0x9010, 2, 2));
}

#[test]
fn case_g() {
    let mut t = of_the_cases();
    t.set_entry(2, SECOND, [1, 2, 1, 0]);
    t.keeps(dma(5, READ, 0x0800_0000_0100_0000, 1, 0), pass(0x100_0000, 2, 0));
    for address in [0x0800_0000_0200_0000, 0x0800_0000_00FF_FFFF] {
        t.would_freeze(dma(5, READ, address, 1, 0), refuse(7, 0), (2, 7, address));
    }
}

#[test]
fn case_h() {
    for (address, data) in [(0x1000_0000_0000_0070, 3), (0xFFFF_0070, 0)] {
        let mut t = of_the_cases();
        t.set_interrupt(7, [2, 0x42, 5, 0]);
        // Word 31 is 2P+Q of interrupt 7.
        t.check(dma(5, WRITE, address, 4, data), msi(7, 0x42, 5), &[Interrupt(31, 2)]);
        t.check(dma(5, WRITE, address, 4, data), held(7), &[Interrupt(31, 3)]);
    }
}

#[test]
fn case_i() {
    let mut t = of_the_cases();
    t.set_m32([0x1_0000_0000, 0x1000_0000, 0x8000_0000]);
    t.segments[3] = 1;
    t.keeps(load(0x1_0030_0010, 4), pass(0x8030_0010, 1, 0));
}

#[test]
fn case_j() {
    let mut t = of_the_cases();
    t.requesters[6] = 1;
    t.peers[4] = 1 << 2;
    t.peers[8] = 1 << 3;
    t.freezes(error(6), done(), &[(1, 12, 6), (2, 13, 1)]);
}

// ---- Tables of full size ----

/// M64 window 15 ends at 2^64.
const LAST_M64: u64 = 0xFFFC_0000_0000_0000;

/// The most interrupts; the last one, with the words of its priority and of its 2P+Q.
const INTERRUPTS: usize = 4_096;
const LAST: u64 = 4_095;
const LAST_PRIORITY: usize = 16_382;
const LAST_BITS: usize = 16_383;

/// An address of the last interrupt in each MSI window.
const NARROW: u64 = 0xFFFF_FFF0;
const WIDE: u64 = 0x1FFF_FFFF_FFF0_FFF0;

/// The largest tables: requester 65,535 is PE 255, its first record is a table in the last 4 KiB of
/// memory, the last interrupt is its own, and so are the last segments of M32 and of M64 15.
fn largest() -> Tables {
    let mut t = Tables::new(256, INTERRUPTS, 65_536, 1_048_576);
    t.requesters[65_535] = 255;
    t.set_entry(255, FIRST, [0x7F_F000, 1, 1, 1]);
    t.set_entry(255, SECOND, [0, 1 << 35, 31, 0]);
    t.memory[1_048_575] = 0xABCD_E003;
    t.set_interrupt(INTERRUPTS - 1, [255, 0xFF_FFFF, 254, 0]);
    t.set_m32([0, 0x1_0000_0000, 0]);
    t.segments[255] = 255;
    t.set_m64(15, [LAST_M64, 1 << 50, 2, 0]);
    t
}

/// Every kind of request, words that name none too.
fn of_every_kind() -> [RequestWords; 12] {
    [
        dma(65_535, READ, 0x1F_FFFC, 4, 0),
        dma(65_535, WRITE, NARROW, 4, 0),
        load(0xFFFF_FFF8, 8),
        store(0xFFFF_FFFF_FFFF_FFF8, 8),
        priority(LAST, 255),
        end(LAST),
        clear(255, RECORD),
        dma(65_535, READ, 0x20_0000, 4, 0),
        error(65_535),
        [9, 0, 0, 0, 0, 0, 0, 0],
        fatal(65_535),
        fence_clear(),
    ]
}

#[test]
fn full_size_every_kind() {
    let mut t = largest();
    t.state[1_021..1_024].copy_from_slice(&[99, 98, 97]);
    let answers = [
        pass(0xABCD_EFFC, 255, 1),
        msi(LAST, 0xFF_FFFF, 254),
        pass(0xFFFF_FFF8, 255, 0),
        pass(0xFFFF_FFFF_FFFF_FFF8, 255, 0),
        done(),
        done(),
        done(),
        refuse(7, 0),
        done(),
        refuse(2, 0),
        done(),
        done(),
    ];
    // The end clears the P that the MSI set. The record is cleared, then written by reason 7 alone.
    // The fence is set and cleared.
    let mut changes = vec![Interrupt(LAST_PRIORITY, 255)];
    changes.extend(frozen(255, 7, 0x20_0000, 0));
    t.check_list(&of_every_kind(), &answers, &changes);
}

#[test]
fn full_size_requesters() {
    let mut t = largest();
    t.requesters[65_534] = 256;
    t.requesters[65_533] = 0xFFFF;
    t.keeps(dma(65_535, WRITE, 0x1F_F000, 4_096, 0), pass(0xABCD_E000, 255, 1));
    let none = [65_533, 65_534, 65_536, 0x1_FFFF, (1 << 32) + 65_535, u64::MAX];
    for requester in none {
        t.keeps(dma(requester, WRITE, 0x1F_F000, 4_096, 0), refuse(3, 0));
        t.keeps(error(requester), refuse(3, 0));
    }
    // The other requesters are PE 0, whose entries are disabled.
    t.freezes(dma(65_532, WRITE, 0x1F_F000, 4_096, 0), refuse(6, 0), &[(0, 6, 0x1F_F000)]);
}

#[test]
fn full_size_memory() {
    let mut t = largest();
    // Two levels, both in the last table: its last word is upper and last word.
    t.set_entry(255, FIRST, [0x7F_F000, 2, 1, 1]);
    t.memory[1_048_575] = 0x7F_F003;
    t.keeps(dma(65_535, READ, 0x3FFF_F123, 1, 0), pass(0x7F_F123, 255, 2));
    // The last bypass byte.
    t.keeps(dma(65_535, READ, 0x0FFF_FFFF_FFFF_FFFF, 1, 0), pass(0x07FF_FFFF_FFFF_FFFF, 255, 0));
    // A lower table and a first table that start one past memory.
    t.memory[1_048_575] = 0x80_0003;
    let lower = refuse_at(0x80_0FF8, 15, 1);
    t.would_freeze(dma(65_535, READ, 0x3FFF_F123, 1, 0), lower, (255, 15, 0x3FFF_F123));
    for levels in [1, 2] {
        t.set_entry(255, FIRST, [0x80_0000, levels, 1, 1]);
        t.would_freeze(dma(65_535, READ, 0, 1, 0), refuse_at(0x80_0000, 15, 0), (255, 15, 0));
    }
    // A table of 8 KiB at the end of a memory that lacks its last word.
    t.resize(256, INTERRUPTS, 65_536, 1_048_575);
    t.set_entry(255, FIRST, [0x7F_E000, 1, 2, 1]);
    t.memory[1_048_574] = 0x1003;
    t.keeps(dma(65_535, WRITE, 0x3F_E004, 4, 0), pass(0x1004, 255, 1));
    let last = refuse_at(0x7F_FFF8, 15, 0);
    t.would_freeze(dma(65_535, WRITE, 0x3F_F004, 4, 0), last, (255, 15, 0x3F_F004));
}

#[test]
fn full_size_peers() {
    // A bit in each word of the vector, the failing PE's own and the ends of the words among them.
    let mut t = largest();
    t.peers[4 * 255] = 1;
    t.peers[4 * 255 + 1] = 1;
    t.peers[4 * 255 + 2] = 1 << 63;
    t.peers[4 * 255 + 3] = 1 | 1 << 62 | 1 << 63;
    // Peers of peers.
    t.peers[4 * 254 + 3] = 1 << 61;
    let peers = [(0, 13, 255), (64, 13, 255), (191, 13, 255), (192, 13, 255), (254, 13, 255)];
    // A refusal stops none of them. The second record has a table past memory, or none; the first
    // leads to a page that is not installed.
    t.set_entry(255, SECOND, [0x80_0000, 1, 1, 1]);
    t.installed = 0xABCD_E000;
    let refused = [
        (0x2000_0000_0000_0000, refuse(5, 0)),
        (0x20_0000, refuse(7, 0)),
        (0x1000, refuse_at(0x7F_F008, 8, 1)),
        (NARROW, refuse(9, 0)),
        (1 << 59, refuse_at(0x80_0000, 15, 0)),
        (0x1F_F000, refuse(17, 1)),
    ];
    for (address, answer) in refused {
        let request = dma(65_535, READ, address, 4, 0);
        t.would_freeze(request, answer, (255, answer[AT_REASON], address));
    }
    t.set_entry(255, SECOND, [0; 4]);
    t.would_freeze(dma(65_535, READ, 1 << 59, 4, 0), refuse(6, 0), (255, 6, 1 << 59));
    let mut all = peers.to_vec();
    all.push((255, 12, 65_535));
    t.freezes(error(65_535), done(), &all);
    // PE 0 has PE 255 as its peer, and both have records.
    t.peers[3] = 1 << 63;
    t.state[0] = 0xFFFF_FFFF_FFFF_FFFC;
    t.state[1_020] = 4;
    t.check(error(7), done(), &[State(0, u64::MAX), State(1_020, 7)]);
    // With 255 PEs the bit of PE 255 is ignored.
    let mut t = largest();
    t.resize(255, INTERRUPTS, 65_536, 1_048_576);
    t.peers[3] = 3 << 62;
    t.freezes(error(7), done(), &[(0, 12, 7), (254, 13, 0)]);
}

#[test]
fn peers_of_n_and_above() {
    for n in [1, 4, 63, 64, 65, 128, 255] {
        let mut t = Tables::new(n, 0, 1, 0);
        // PE N is not there, and the word after those of the PEs is not its stop word.
        *t.fence() = u64::MAX - 1;
        for k in n..256 {
            t.peers[k / 64] |= 1 << (k % 64);
        }
        t.would_freeze(error(0), done(), (0, 12, 0));
        t.would_freeze(dma(0, READ, 0x3ABC, 4, 0), refuse(6, 0), (0, 6, 0x3ABC));
        // With every bit set, all PEs that there are; by a refusal none but its own.
        t.peers[..4].fill(u64::MAX);
        t.would_freeze(dma(0, READ, 0x3ABC, 4, 0), refuse(6, 0), (0, 6, 0x3ABC));
        let mut all = vec![(0, 12, 0)];
        all.extend((1..n).map(|pe| (pe, 13, 0)));
        t.freezes(error(0), done(), &all);
    }
}

#[test]
fn peers_run_on_after_a_refusal() {
    // PE 2 lists PE 3, which is in bypass and has a window.
    let mut t = of_the_cases();
    t.requesters[6] = 3;
    t.peers[8] = 1 << 3;
    t.set_entry(3, FIRST, [1, 2, 1, 0]);
    t.set_m64(0, [0x1000_0000, 0x1000_0000, 1, 3]);
    let of_peer = [dma(6, WRITE, 0x100_0000, 4, 0), load(0x1000_0000, 4), store(0x1000_0000, 4)];
    let serves = |t: &Tables, answers: [AnswerWords; 3]| {
        for (request, answer) in of_peer.iter().zip(answers) {
            t.clone().keeps(*request, answer);
        }
    };
    let at_window = pass(0x1000_0000, 3, 0);
    let served = [pass(0x100_0000, 3, 0), at_window, at_window];
    t.freezes(dma(5, READ, 0x20_0000, 4, 0), refuse(7, 0), &[(2, 7, 0x20_0000)]);
    serves(&t, served);
    t.keeps(dma(5, READ, 0x20_0000, 4, 0), refuse(4, 0));
    serves(&t, served);
    // The message is obeyed although PE 2 is stopped; its record stays.
    t.check(error(5), done(), &[State(12, 3), State(13, 13), State(14, 2)]);
    serves(&t, [refuse(4, 0), ones(0xFFFF_FFFF), dropped()]);
}

#[test]
fn full_size_interrupts() {
    let mut t = largest();
    t.check(dma(65_535, WRITE, WIDE, 4, 0), msi(LAST, 0xFF_FFFF, 254), &[Interrupt(LAST_BITS, 2)]);
    t.check(dma(65_535, WRITE, NARROW, 4, 31), held(LAST), &[Interrupt(LAST_BITS, 3)]);
    t.check(end(LAST), msi(LAST, 0xFF_FFFF, 254), &[Interrupt(LAST_BITS, 2)]);
    t.check(priority(LAST, 255), done(), &[Interrupt(LAST_PRIORITY, 255)]);
    t.check(dma(65_535, WRITE, WIDE, 4, 0), held(LAST), &[Interrupt(LAST_BITS, 3)]);
    t.check(end(LAST), done(), &[Interrupt(LAST_BITS, 1)]);
    t.check(
        priority(LAST, 0),
        msi(LAST, 0xFF_FFFF, 0),
        &[Interrupt(LAST_PRIORITY, 0), Interrupt(LAST_BITS, 2)],
    );
    t.keeps(priority(LAST, 256), refuse(2, 0));
    for number in [4_096, 0x1_0FFF, u64::MAX] {
        t.keeps(end(number), refuse(14, 0));
        t.keeps(priority(number, 5), refuse(14, 0));
        t.keeps(priority(number, 256), refuse(2, 0));
    }
    // Number 4,096 and the last number, which the 64-bit window alone has; numbers of another PE.
    for address in [
        0x1000_0000_0001_0000,
        0x1FFF_FFFF_FFFF_FFF0,
        0xFFFF_FFE0,
        0xFFFF_7FF0,
        0x1000_0000_0000_0000,
    ] {
        t.would_freeze(dma(65_535, WRITE, address, 4, 0), refuse(9, 0), (255, 9, address));
    }
    // With one interrupt less both windows name a number that is not below M.
    t.resize(256, INTERRUPTS - 1, 65_536, 1_048_576);
    for address in [NARROW, WIDE] {
        t.would_freeze(dma(65_535, WRITE, address, 4, 0), refuse(9, 0), (255, 9, address));
    }
    t.keeps(end(LAST), refuse(14, 0));
    // One past the largest server, priority and state.
    for (word, value) in [(1, 1 << 24), (2, 256), (3, 4), (0, (1 << 16) + 255)] {
        let mut t = largest();
        t.interrupts[4 * (INTERRUPTS - 1) + word] = value;
        t.would_freeze(dma(65_535, WRITE, NARROW, 4, 0), refuse(9, 0), (255, 9, NARROW));
        t.keeps(end(LAST), refuse(14, 0));
        t.keeps(priority(LAST, 5), refuse(14, 0));
    }
}

#[test]
fn full_size_loads_and_stores() {
    let mut t = largest();
    t.segments[254] = 256;
    // Segments of M32 are 16 MiB, those of M64 15 are 4 TiB.
    t.keeps(load(0xFF00_0000, 1), pass(0xFF00_0000, 255, 0));
    t.keeps(load(0xFFFF_FFFF, 1), pass(0xFFFF_FFFF, 255, 0));
    t.keeps(load(0xFEFF_FFFF, 1), refuse(10, 0));
    t.keeps(load(0x1_0000_0000, 8), refuse(10, 0));
    t.keeps(load(LAST_M64 - 8, 8), refuse(10, 0));
    t.keeps(load(LAST_M64, 8), pass(LAST_M64, 0, 0));
    t.keeps(store(0xFFFF_FBFF_FFFF_FFFF, 1), pass(0xFFFF_FBFF_FFFF_FFFF, 254, 0));
    t.keeps(store(0xFFFF_FC00_0000_0000, 8), pass(0xFFFF_FC00_0000_0000, 255, 0));
    t.keeps(store(u64::MAX, 1), pass(u64::MAX, 255, 0));
    t.keeps(load(u64::MAX, 2), refuse(2, 0));
    t.keeps(load(u64::MAX - 15, 16), refuse(2, 0));
    // PE 255 is MMIO stopped.
    t.state[1_020] = 1;
    for (width, value) in [(1, 0xFF), (2, 0xFFFF), (4, 0xFFFF_FFFF), (8, u64::MAX)] {
        t.keeps(load(0xFF00_0000, width), ones(value));
        t.keeps(store(0xFFFF_FC00_0000_0000, width), dropped());
    }
    t.keeps(load(LAST_M64, 8), pass(LAST_M64, 0, 0));
    // A window of one PE: 255 is the last, 256 is none.
    t.state[1_020] = 0;
    t.set_m64(14, [LAST_M64, 1 << 28, 1, 255]);
    t.keeps(load(LAST_M64, 8), pass(LAST_M64, 255, 0));
    t.set_m64(14, [LAST_M64, 1 << 28, 1, 256]);
    t.keeps(load(LAST_M64, 8), refuse(10, 0));
}

#[test]
fn full_size_firmware() {
    let mut t = largest();
    t.state[1_020..1_024].copy_from_slice(&[u64::MAX, 15, u64::MAX, u64::MAX]);
    t.check(clear(255, MMIO_BIT), done(), &[State(1_020, u64::MAX - 1)]);
    t.check(clear(255, DMA_BIT), done(), &[State(1_020, u64::MAX - 3)]);
    t.check(clear(255, RECORD), done(), &[State(1_021, 0), State(1_022, 0), State(1_023, 0)]);
    // PE 256 is not there; the fence word would be its stop word.
    *t.fence() = u64::MAX;
    for pe in [256, 0x1_00FF, u64::MAX] {
        for part in [MMIO_BIT, DMA_BIT, RECORD] {
            t.keeps(clear(pe, part), refuse(14, 0));
        }
    }
}

// ---- One past each limit ----

/// Every request is 1 and no word changes.
#[track_caller]
fn refuses_all(name: &str, mut t: Tables) {
    println!("{}", name);
    let requests = of_every_kind();
    t.check_list(&requests, &[refuse(1, 0); 12], &[]);
    for request in requests {
        t.keeps(request, refuse(1, 0));
    }
}

#[test]
fn past_the_limits() {
    let t = largest();
    for (name, n, m, r, words) in [
        ("N is 257", 257, INTERRUPTS, 65_536, 1_048_576),
        ("M is 4,097", 256, 4_097, 65_536, 1_048_576),
        ("R is 65,537", 256, INTERRUPTS, 65_537, 1_048_576),
        ("memory has 1,048,577 words", 256, INTERRUPTS, 65_536, 1_048_577),
        ("N is 0", 0, INTERRUPTS, 65_536, 1_048_576),
        ("R is 0", 256, INTERRUPTS, 0, 1_048_576),
    ] {
        let mut t = t.clone();
        t.resize(n, m, r, words);
        refuses_all(name, t);
    }
}

#[test]
fn numbers_off_the_lengths() {
    // The lengths stay as they are; four times 2^62 is 0 in 64 bits.
    let t = largest();
    for n in [0, 255, 257, (1 << 62) + 256, u64::MAX] {
        refuses_all("N", Tables { pes: n, ..t.clone() });
    }
    for m in [0, 4_095, 4_097, (1 << 62) + 4_096, u64::MAX] {
        refuses_all("M", Tables { interrupt_count: m, ..t.clone() });
    }
    for r in [0, 65_535, 65_537, (1 << 32) + 65_536, u64::MAX] {
        refuses_all("R", Tables { requester_count: r, ..t.clone() });
    }
}

#[test]
fn lengths_one_off() {
    let change = |name: &str, change: fn(&mut Tables)| {
        let mut t = largest();
        change(&mut t);
        refuses_all(name, t);
    };
    change("requesters one short", |t| t.requesters.truncate(65_535));
    change("requesters one long", |t| t.requesters.push(0));
    change("translation entries one short", |t| t.entries.truncate(2_047));
    change("translation entries one long", |t| t.entries.push(0));
    change("memory one long", |t| t.memory.push(0));
    change("peers one short", |t| t.peers.truncate(1_023));
    change("peers one long", |t| t.peers.push(0));
    change("interrupts one short", |t| t.interrupts.truncate(LAST_BITS));
    change("interrupts one long", |t| t.interrupts.push(0));
    change("windows one short", |t| t.windows.truncate(66));
    change("windows one long", |t| t.windows.push(0));
    change("segments one short", |t| t.segments.truncate(255));
    change("segments one long", |t| t.segments.push(0));
    change("state without the fence word", |t| t.state.truncate(1_024));
    change("state two short", |t| t.state.truncate(1_023));
    change("state one long", |t| t.state.push(0));
    change("state with a fence and one long", |t| t.state.splice(1_024.., [1, 1]).for_each(drop));
    change("state of one PE more", |t| t.state.resize(1_029, 0));
    change("state of three words to each PE", |t| t.state.truncate(768));
    change("all empty", |t| {
        t.resize(0, 0, 0, 0);
        t.windows.clear();
        t.segments.clear();
    });
}

#[test]
fn smallest() {
    // N is 1, M is 0, R is 1 and there is no memory.
    let mut t = Tables::new(1, 0, 1, 0);
    t.set_entry(0, FIRST, [0, 1, 1, 1]);
    t.set_entry(0, SECOND, [0, 1, 1, 0]);
    t.keeps(dma(0, READ, 0x0800_0000_0000_0000, 1, 0), pass(0, 0, 0));
    t.would_freeze(dma(0, READ, 0, 1, 0), refuse_at(0, 15, 0), (0, 15, 0));
    t.would_freeze(dma(0, WRITE, 0xFFFF_0000, 4, 0), refuse(9, 0), (0, 9, 0xFFFF_0000));
    t.keeps(dma(1, READ, 0, 1, 0), refuse(3, 0));
    t.keeps(end(0), refuse(14, 0));
    t.keeps(clear(1, DMA_BIT), refuse(14, 0));
    t.keeps(load(0, 8), refuse(10, 0));
    t.freezes(error(0), done(), &[(0, 12, 0)]);
}

// ---- Limits of the words ----

/// Word 0 of the table at 0x1000 leads to that table again, and as a last word to its own page.
fn of_one_pe() -> Tables {
    let mut t = Tables::new(1, 0, 1, 0x400);
    t.set_word(0, 3);
    t.set_word(0x1000, 0x1003);
    t
}

#[test]
fn good_entries() {
    let mut t = of_one_pe();
    // The entry, the address that 0x123 gives, and the words read.
    let entries: [([u64; 4], u64, u64); 9] = [
        ([0x1000, 5, 1, 1], 0x1123, 5),
        ([0x1000, 4, 1, 5], 0x123, 4),
        ([0x1000, 1, 1, 13], 0x123, 1),
        ([0x1000, 1, 1, 17], 0x123, 1),
        // 59 bits.
        ([0, 1, 27, 13], 0x123, 1),
        ([0, 1, 23, 17], 0x123, 1),
        ([0, 1, 31, 0], 0x123, 0),
        ([0, 1 << 35, 1, 0], 0x123, 0),
        ([0, (1 << 35) - 1, 1, 0], 0x123, 0),
    ];
    for (entry, address, words) in entries {
        t.set_entry(0, FIRST, entry);
        t.keeps(dma(0, READ, 0x123, 1, 0), pass(address, 0, words));
    }
}

#[test]
fn bad_entries() {
    let mut t = of_one_pe();
    let mut entries = vec![
        [0x1000, 0, 1, 1],
        [0x1000, 6, 1, 1],
        [0x1000, (1 << 32) + 1, 1, 1],
        [0x1000, 1, 0, 1],
        [0, 1, 32, 1],
        [0, 1, 32, 0],
        [0, 1, 0, 0],
        [0x1800, 1, 1, 1],
        [0x1001, 1, 1, 1],
        // 60 bits.
        [0, 1, 28, 13],
        [0, 1, 24, 17],
        [0, 4, 1, 13],
        [0, 3, 8, 1],
        // A bypass that is empty or too long.
        [0, 0, 1, 0],
        [1, 1, 1, 0],
        [2, 1, 1, 0],
        [0, (1 << 35) + 1, 1, 0],
    ];
    for page_code in [2, 3, 4, 6, 9, 12, 14, 16, 18, 0x101, (1 << 32) + 1, u64::MAX] {
        entries.push([0x1000, 1, 1, page_code]);
    }
    for entry in entries {
        t.set_entry(0, FIRST, entry);
        t.would_freeze(dma(0, READ, 0x123, 1, 0), refuse(6, 0), (0, 6, 0x123));
    }
}

#[test]
fn msi_numbers() {
    let mut t = of_the_cases();
    t.set_interrupt(7, [2, 0x42, 255, 1]);
    // Address bits 3 and 2, those above the number, and data bits above 4 are ignored.
    for (address, data) in [
        (0xFFFF_0000, 7),
        (0xFFFF_007C, 0xFFFF_FFE0),
        (0x1000_0000_0000_0030, 4),
        (0x1FFF_FFFF_FFF0_007C, 0xFFFF_FFE7),
    ] {
        t.keeps(dma(5, WRITE, address, 4, data), held(7));
    }
    // Numbers that are 7 in fewer bits, and other forms of request.
    for (direction, address, length) in [
        (WRITE, 0xFFFF_8070, 4),
        (WRITE, 0x1000_0000_0001_0070, 4),
        (WRITE, 0x1000_0000_0008_0070, 4),
        (WRITE, 0xFFFF_00F0, 4),
        (READ, 0xFFFF_0070, 4),
        (WRITE, 0xFFFF_0070, 3),
        (WRITE, 0xFFFF_0070, 8),
        (WRITE, 0xFFFF_0071, 4),
        (WRITE, 0xFFFF_0072, 4),
    ] {
        let request = dma(5, direction, address, length, 0);
        t.would_freeze(request, refuse(9, 0), (2, 9, address));
    }
    // Just outside the 32-bit window, where the table has no valid word or ends.
    t.set_entry(2, FIRST, [0x2000, 1, 1, 17]);
    for (address, word) in [(0xFFFE_FFFC, 0x2078), (0x1_0000_0000, 0x2080)] {
        t.would_freeze(dma(5, WRITE, address, 4, 7), refuse_at(word, 8, 1), (2, 8, address));
    }
}

#[test]
fn interrupt_states() {
    let arrives = dma(5, WRITE, 0xFFFF_0070, 4, 0);
    let presents = |priority| msi(7, 0x42, priority);
    // Priority, request, and for 2P+Q of 0 to 3 the answer and 2P+Q afterwards.
    let rows = [
        (5, arrives, [(presents(5), 2), (presents(5), 3), (held(7), 3), (held(7), 3)]),
        (255, arrives, [(held(7), 1), (held(7), 1), (held(7), 3), (held(7), 3)]),
        (5, end(7), [(done(), 0), (done(), 1), (done(), 0), (presents(5), 2)]),
        (255, end(7), [(done(), 0), (done(), 1), (done(), 0), (done(), 1)]),
        (5, priority(7, 6), [(done(), 0), (done(), 1), (done(), 2), (done(), 3)]),
        (255, priority(7, 6), [(done(), 0), (presents(6), 2), (done(), 2), (held(7), 3)]),
        (5, priority(7, 255), [(done(), 0), (done(), 1), (done(), 2), (done(), 3)]),
        (255, priority(7, 255), [(done(), 0), (done(), 1), (done(), 2), (done(), 3)]),
    ];
    for (before, request, afterwards) in rows {
        let after = if request[0] == PRIORITY { request[2] } else { before };
        for (state, (answer, next)) in (0..).zip(afterwards) {
            let mut t = of_the_cases();
            t.set_interrupt(7, [2, 0x42, before, state]);
            t.check(request, answer, &[Interrupt(30, after), Interrupt(31, next)]);
        }
    }
}

#[test]
fn m32_limits() {
    let mut t = of_one_pe();
    let open = [
        ([1 << 40, 1 << 20, 0xFFF0_0000], 0xFFF0_0000),
        ([1 << 40, 1 << 32, 0], 0),
        ([0xFFFF_FFFF_0000_0000, 1 << 32, 0], 0),
        ([0, 1 << 31, 1 << 31], 1 << 31),
    ];
    for (window, pci) in open {
        t.set_m32(window);
        let last = window[1] - 1;
        t.keeps(load(window[0], 8), pass(pci, 0, 0));
        t.keeps(load(window[0] + last, 1), pass(pci + last, 0, 0));
    }
    let closed = [
        [1 << 40, 0, 0],
        [1 << 40, 1 << 19, 0],
        [1 << 40, 1 << 33, 0],
        [0, 3 << 20, 0],
        [(1 << 40) + (1 << 19), 1 << 20, 0],
        [1 << 40, 1 << 20, 1 << 19],
        [1 << 40, 1 << 20, 1 << 32],
        [1 << 40, 1 << 32, 1 << 32],
        [1 << 40, 1 << 20, 0xFFFF_FFFF_FFF0_0000],
    ];
    for window in closed {
        t.set_m32(window);
        t.keeps(load(window[0], 8), refuse(10, 0));
    }
}

#[test]
fn m64_limits() {
    let mut t = of_one_pe();
    for window in [[1 << 60, 1 << 28, 1, 0], [1 << 60, 1 << 50, 2, 9], [0, 1 << 50, 1, 0]] {
        t.set_m64(15, window);
        t.keeps(load(window[0] + 8, 8), pass(window[0] + 8, 0, 0));
        t.keeps(load(window[0] + window[1], 8), refuse(10, 0));
    }
    let closed = [
        [1 << 60, 1 << 27, 1, 0],
        [1 << 60, 1 << 51, 1, 0],
        [1 << 60, 0, 1, 0],
        [0, 3 << 28, 1, 0],
        [(1 << 60) + (1 << 27), 1 << 28, 1, 0],
        [1 << 60, 1 << 28, 0, 0],
        [1 << 60, 1 << 28, 3, 0],
        [1 << 60, 1 << 28, (1 << 32) + 1, 0],
        [1 << 60, 1 << 28, 1, 1],
        [1 << 60, 1 << 28, 1, 1 << 16],
    ];
    for window in closed {
        t.set_m64(15, window);
        t.keeps(load(window[0], 8), refuse(10, 0));
    }
}

// ---- The word that a walk stops at ----

/// PE 2's first record has three levels. Index 1 leads on at each of them, from 0x2008 to 0x3008 to
/// 0x4008, and there to page 0x9000; every other word of these tables is 0.
fn of_three_levels() -> Tables {
    let mut t = of_the_cases();
    t.set_entry(2, FIRST, [0x2000, 3, 1, 1]);
    t.set_word(0x2008, 0x3001);
    t.set_word(0x3008, 0x4002);
    t.set_word(0x4008, 0x9003);
    t
}

/// An address by its index at each level, the first level first.
fn by_index(first: u64, middle: u64, last: u64) -> u64 {
    first << 30 | middle << 21 | last << 12
}

/// This read stops at this word; it is answered and recorded.
#[track_caller]
fn stops_at(t: &Tables, address: u64, word: u64, reason: u64, words: u64) {
    let request = dma(5, READ, address, 4, 0);
    t.would_freeze(request, refuse_at(word, reason, words), (2, reason, address));
}

#[test]
fn word_that_is_not_valid() {
    let mut t = of_three_levels();
    t.keeps(dma(5, READ, by_index(1, 1, 1), 4, 0), pass(0x9000, 2, 3));
    // The bits above the lowest two do not make a word valid.
    for word in [0, 0x3FFC, 0xFFFF_FFFF_FFFF_FFFC] {
        t.set_word(0x2010, word);
        t.set_word(0x3018, word);
        t.set_word(0x4020, word);
        stops_at(&t, by_index(2, 1, 1), 0x2010, 8, 1);
        stops_at(&t, by_index(1, 3, 1), 0x3018, 8, 2);
        stops_at(&t, by_index(1, 1, 4), 0x4020, 8, 3);
    }
    stops_at(&t, by_index(511, 1, 1), 0x2FF8, 8, 1);
    stops_at(&t, by_index(1, 511, 1), 0x3FF8, 8, 2);
    stops_at(&t, by_index(1, 1, 511), 0x4FF8, 8, 3);
}

#[test]
fn word_of_the_other_direction() {
    let mut t = of_three_levels();
    for (word, good, bad) in [(0x9001, READ, WRITE), (0x9002, WRITE, READ)] {
        t.set_word(0x4020, word);
        let address = by_index(1, 1, 4);
        t.keeps(dma(5, good, address, 4, 0), pass(0x9000, 2, 3));
        let answer = refuse_at(0x4020, 8, 3);
        t.would_freeze(dma(5, bad, address, 4, 0), answer, (2, 8, address));
    }
}

#[test]
fn word_that_leads_to_a_misaligned_table() {
    // Tables of 8 KiB: the index has 10 bits. The upper word is named, not the table.
    let mut t = of_the_cases();
    t.set_entry(2, FIRST, [0x2000, 3, 2, 1]);
    t.set_word(0x2008, 0x4001);
    t.set_word(0x2010, 0x5003);
    t.set_word(0x4008, 0x6002);
    t.set_word(0x4018, 0x7001);
    t.set_word(0x6008, 0x9003);
    t.keeps(dma(5, READ, 0x1_0040_1000, 4, 0), pass(0x9000, 2, 3));
    stops_at(&t, 0x2_0040_1000, 0x2010, 8, 1);
    stops_at(&t, 0x1_00C0_1000, 0x4018, 8, 2);
    // Outside memory and misaligned: the upper word again, and no word is missing.
    t.set_word(0x2010, 0xFFFF_FFFF_FFFF_F001);
    stops_at(&t, 0x2_0040_1000, 0x2010, 8, 1);
}

#[test]
fn word_that_is_not_there() {
    // Memory ends at 0x8000. A table there, and the last one below 2^64.
    for (table, last) in [(0x8000, 0x8FF8), (0xFFFF_FFFF_FFFF_F000, 0xFFFF_FFFF_FFFF_FFF8)] {
        let mut t = of_three_levels();
        t.set_word(0x3008, table | 2);
        stops_at(&t, by_index(1, 1, 0), table, 15, 2);
        stops_at(&t, by_index(1, 1, 511), last, 15, 2);
        t.set_word(0x2008, table | 1);
        stops_at(&t, by_index(1, 0, 1), table, 15, 1);
        stops_at(&t, by_index(1, 511, 1), last, 15, 1);
        for levels in [1, 2, 3] {
            t.set_entry(2, FIRST, [table, levels, 1, 1]);
            stops_at(&t, 0, table, 15, 0);
            stops_at(&t, (1 << (12 + 9 * levels)) - 0x1000, last, 15, 0);
        }
    }
}

#[test]
fn word_at_address_0() {
    // The number is 0, as where there is none.
    let mut t = Tables::new(4, 0, 8, 0x400);
    t.requesters[5] = 2;
    for levels in [1, 2, 3] {
        t.set_entry(2, FIRST, [0, levels, 1, 1]);
        stops_at(&t, 0xABC, 0, 8, 1);
    }
    // The first table is at 0x1000, the lower one at 0.
    t.set_entry(2, FIRST, [0x1000, 2, 1, 1]);
    t.set_word(0x1000, 1);
    stops_at(&t, 0xABC, 0, 8, 2);
    t.set_entry(2, FIRST, [0, 2, 1, 1]);
    t.resize(4, 0, 8, 0);
    stops_at(&t, 0xABC, 0, 15, 0);
}

/// The rows of `docs/HOST.md`, 'Which table word failed'.
#[test]
fn word_by_the_count() {
    let mut t = of_the_cases();
    t.set_entry(2, FIRST, [0x2000, 2, 1, 1]);
    let rows = [
        (0x5001, 0x9003, WRITE, pass(0x9010, 2, 2)),
        (0x5000, 0x9003, READ, refuse_at(0x2010, 8, 1)),
        (0x5003, 0x9001, WRITE, refuse_at(0x5018, 8, 2)),
        (0x1000_0001, 0x9003, READ, refuse_at(0x1000_0018, 15, 1)),
    ];
    for (upper, last, direction, answer) in rows {
        t.set_word(0x2010, upper);
        t.set_word(0x5018, last);
        let request = dma(5, direction, 0x40_3010, 4, 0);
        match answer[AT_NAME] {
            PASS => t.keeps(request, answer),
            _ => t.would_freeze(request, answer, (2, answer[AT_REASON], 0x40_3010)),
        }
    }
    t.set_entry(2, FIRST, [0x2000, 2, 2, 1]);
    t.set_word(0x2008, 0x5003);
    stops_at(&t, 0x40_3010, 0x2008, 8, 1);
}

/// Each reason that freezes but 12, by a read of PE 2: the address and the answer.
fn that_freeze() -> [(u64, AnswerWords); 8] {
    [
        (0x2000_0000_0000_0000, refuse(5, 0)),
        (0x0800_0000_0000_0000, refuse(6, 0)),
        (1 << 39, refuse(7, 0)),
        (by_index(2, 1, 1), refuse_at(0x2010, 8, 1)),
        (by_index(1, 1, 2), refuse_at(0x4010, 8, 3)),
        (0xFFFF_0070, refuse(9, 0)),
        (by_index(3, 0, 2), refuse_at(0x8000, 15, 1)),
        (by_index(1, 1, 5), refuse(17, 3)),
    ]
}

/// The tables of `of_three_levels`, where index 3 leads out of memory, and index 5 at the last level
/// to the first page that is not installed. PE 3 is the peer of PE 2, and both have these words.
fn with_state(words: [u64; 4]) -> Tables {
    let mut t = of_three_levels();
    t.set_word(0x2018, 0x8001);
    t.set_word(0x4028, GIB_4 | 3);
    t.peers[8] = 1 << 3;
    t.state[8..12].copy_from_slice(&words);
    t.state[12..16].copy_from_slice(&words);
    t
}

#[test]
fn words_left_over_in_an_empty_record() {
    let before = with_state([4, 0, 0x77, 0x88]);
    for (address, answer) in that_freeze() {
        let changes = [
            State(8, 7),
            State(9, answer[AT_REASON]),
            State(10, address),
            State(11, answer[AT_WORD]),
        ];
        before.clone().check(dma(5, READ, address, 4, 0), answer, &changes);
    }
    let of_message = [State(8, 7), State(9, 12), State(10, 5), State(11, 0)];
    let of_peer = [State(12, 7), State(13, 13), State(14, 2), State(15, 0)];
    before.clone().check(error(5), done(), &[of_message, of_peer].concat());
}

#[test]
fn record_that_is_there_stays() {
    for record in [[8, 0x1F_FFFF, 0x2FF8], [7, 0x20_0000, 0], [99, 0, u64::MAX]] {
        let before = with_state([4, record[0], record[1], record[2]]);
        for (address, answer) in that_freeze() {
            before.clone().check(dma(5, READ, address, 4, 0), answer, &[State(8, 7)]);
        }
        before.clone().check(error(5), done(), &[State(8, 7), State(12, 7)]);
    }
}

#[test]
fn record_is_cleared_with_its_word() {
    for (reason, value, word) in [(8, 0x1F_FFFF, 0x2FF8), (0, 0x77, 0x88), (0, 0, 0x88)] {
        let mut t = with_state([7, reason, value, word]);
        t.check(clear(2, MMIO_BIT), done(), &[State(8, 6)]);
        t.check(clear(2, DMA_BIT), done(), &[State(8, 4)]);
        t.check(clear(2, RECORD), done(), &[State(9, 0), State(10, 0), State(11, 0)]);
        // The bits of PE 3 stay set, and its record alone is cleared.
        t.check(clear(3, RECORD), done(), &[State(13, 0), State(14, 0), State(15, 0)]);
    }
}

#[test]
fn word_in_a_list() {
    // The record is of the first refusal after each clear of it; later answers have no word.
    let mut t = with_state([0; 4]);
    let served = [
        (dma(5, READ, by_index(2, 1, 1), 4, 0), refuse_at(0x2010, 8, 1)),
        (dma(5, READ, by_index(1, 1, 1), 4, 0), refuse(4, 0)),
        (clear(2, DMA_BIT), done()),
        (dma(5, READ, by_index(1, 1, 1), 4, 0), pass(0x9000, 2, 3)),
        (dma(5, READ, by_index(3, 0, 2), 4, 0), refuse_at(0x8000, 15, 1)),
        (clear(2, RECORD), done()),
        (clear(2, DMA_BIT), done()),
        (dma(5, READ, by_index(1, 1, 2), 4, 0), refuse_at(0x4010, 8, 3)),
        (clear(2, DMA_BIT), done()),
        (dma(5, READ, 1 << 39, 4, 0), refuse(7, 0)),
        (dma(8, READ, 0, 4, 0), refuse(3, 0)),
    ];
    let (requests, answers): (Vec<RequestWords>, Vec<AnswerWords>) = served.into_iter().unzip();
    t.check_list(&requests, &answers, &frozen(2, 8, by_index(1, 1, 2), 0x4010));
}

// ---- The installed size ----

/// A DMA of PE 2 under each of these sizes: it passes to this address, or is 17 after as many words.
/// Nothing but the PE is stopped by it.
#[track_caller]
fn under(t: &Tables, sizes: &[u64], request: RequestWords, passes: Option<u64>, words: u64) {
    for &installed in sizes {
        let mut t = Tables { installed, ..t.clone() };
        match passes {
            Some(address) => t.keeps(request, pass(address, 2, words)),
            None => t.freezes(request, refuse(17, words), &[(2, 17, request[3])]),
        }
    }
}

/// The rows of `docs/HOST.md`, 'The installed size', are among these.
#[test]
fn installed_in_a_page() {
    // Case A: the bytes 0x12345ABC to 0x12345ABF.
    let mut t = of_the_cases();
    t.set_word(0x2018, 0x1234_5003);
    for direction in [READ, WRITE] {
        let request = dma(5, direction, 0x3ABC, 4, 0);
        let small = [0, 1, 4, 0x3AC0, 0x1000_0000, 0x1234_5000, 0x1234_5ABB, 0x1234_5ABC];
        under(&t, &small, request, None, 1);
        under(&t, &[0x1234_5ABD, 0x1234_5ABE, 0x1234_5ABF], request, None, 1);
        let enough = [0x1234_5AC0, 0x1234_5AC1, 0x1234_6000, GIB_4, 1 << 63, u64::MAX];
        under(&t, &enough, request, Some(0x1234_5ABC), 1);
    }
    // One byte, and a whole block.
    let byte = dma(5, READ, 0x3000, 1, 0);
    under(&t, &[0x1234_5000], byte, None, 1);
    under(&t, &[0x1234_5001], byte, Some(0x1234_5000), 1);
    let block = dma(5, READ, 0x3000, 4_096, 0);
    under(&t, &[0x1234_5001, 0x1234_5800, 0x1234_5FFF], block, None, 1);
    under(&t, &[0x1234_6000], block, Some(0x1234_5000), 1);
}

#[test]
fn installed_in_pages_of_each_size() {
    // The last page below 4 GiB and the first one above: the byte before the border, and that at it.
    let page_codes = [(1, 0x1000), (5, 0x1_0000), (13, 0x100_0000), (17, 0x1000_0000)];
    for (code, bytes) in page_codes {
        let mut t = of_the_cases();
        t.set_entry(2, FIRST, [0x2000, 1, 1, code]);
        t.set_word(0x2008, 0xFFFF_FFFF);
        t.set_word(0x2010, GIB_4 | 3);
        t.keeps(dma(5, READ, 2 * bytes - 1, 1, 0), pass(0xFFFF_FFFF, 2, 1));
        t.keeps(dma(5, WRITE, 2 * bytes - 4_096, 4_096, 0), pass(0xFFFF_F000, 2, 1));
        for (address, length) in [(2 * bytes, 1), (2 * bytes, 4_096), (3 * bytes - 1, 1)] {
            let request = dma(5, READ, address, length, 0);
            t.would_freeze(request, refuse(17, 1), (2, 17, address));
        }
        // With one byte more and one less.
        under(&t, &[GIB_4 + 1], dma(5, READ, 2 * bytes, 1, 0), Some(GIB_4), 1);
        under(&t, &[GIB_4 + 1], dma(5, READ, 2 * bytes, 2, 0), None, 1);
        under(&t, &[GIB_4 - 1], dma(5, READ, 2 * bytes - 1, 1, 0), None, 1);
        under(&t, &[GIB_4 - 1], dma(5, READ, 2 * bytes - 2, 1, 0), Some(GIB_4 - 2), 1);
    }
}

#[test]
fn installed_counts_the_levels() {
    // A table that leads to itself at each level; its page is 0x1000.
    for levels in 1..=5 {
        let mut t = of_the_cases();
        t.set_entry(2, FIRST, [0x1000, levels, 1, 1]);
        t.set_word(0x1000, 0x1003);
        let request = dma(5, WRITE, 0x123, 4, 0);
        under(&t, &[0, 0x123, 0x1000, 0x1126], request, None, levels);
        under(&t, &[0x1127, GIB_4], request, Some(0x1123), levels);
    }
}

#[test]
fn installed_in_a_bypass() {
    // Case G: 16 to 32 MiB by the second record, and the same by the first. Bit 59 is not in the
    // system address.
    let mut t = of_the_cases();
    for (record, half) in [(FIRST, 0), (SECOND, 1 << 59)] {
        t.set_entry(2, record, [1, 2, 1, 0]);
        let last = dma(5, READ, half | 0x1FF_FFFF, 1, 0);
        under(&t, &[0, 1, 0x100_0000, 0x1FF_FFFE, 0x1FF_FFFF], last, None, 0);
        under(&t, &[0x200_0000, GIB_4, 1 << 59, u64::MAX], last, Some(0x1FF_FFFF), 0);
        let block = dma(5, WRITE, half | 0x100_0000, 4_096, 0);
        under(&t, &[0, 0x100_0000, 0x100_0001, 0x100_0FFF], block, None, 0);
        under(&t, &[0x100_1000], block, Some(0x100_0000), 0);
        // Around 4 GiB.
        t.set_entry(2, record, [0xFE, 0x101, 1, 0]);
        t.keeps(dma(5, READ, half | 0xFFFE_F000, 4_096, 0), pass(0xFFFE_F000, 2, 0));
        for length in [1, 4_096] {
            let address = half | GIB_4;
            let request = dma(5, READ, address, length, 0);
            t.would_freeze(request, refuse(17, 0), (2, 17, address));
        }
    }
    t.keeps(dma(5, READ, 1 << 59 | 0xFFFF_F000, 4_096, 0), pass(0xFFFF_F000, 2, 0));
    // The last byte of the largest bypass.
    t.set_entry(2, SECOND, [0, 1 << 35, 1, 0]);
    let last = dma(5, READ, 0x0FFF_FFFF_FFFF_FFFF, 1, 0);
    under(&t, &[GIB_4, (1 << 59) - 1], last, None, 0);
    under(&t, &[1 << 59], last, Some(0x07FF_FFFF_FFFF_FFFF), 0);
}

#[test]
fn installed_up_to_the_last_byte() {
    // The last page below 2^64. Its last byte is refused under every size.
    let mut t = of_the_cases();
    t.set_word(0x2018, 0xFFFF_FFFF_FFFF_F003);
    let page = 0xFFFF_FFFF_FFFF_F000;
    let sizes = [0, 0xFFF, 0x1000, GIB_4, page, u64::MAX - 1, u64::MAX];
    for (address, length) in [(0x3000, 4_096), (0x3FFF, 1), (0x3FF8, 8)] {
        under(&t, &sizes, dma(5, READ, address, length, 0), None, 1);
    }
    let others =
        [(0x3000, 4_095, page), (0x3FFE, 1, u64::MAX - 1), (0x3FF8, 7, 0xFFFF_FFFF_FFFF_FFF8)];
    for (address, length, passes) in others {
        let request = dma(5, READ, address, length, 0);
        under(&t, &[0, page, u64::MAX - 1], request, None, 1);
        under(&t, &[u64::MAX], request, Some(passes), 1);
    }
}

#[test]
fn installed_is_tested_last() {
    // Every other refusal is as before where nothing is installed, with its count and its word.
    let mut t = with_state([0; 4]);
    t.requesters[6] = 9;
    t.set_word(0x4020, 0x9001);
    t.set_word(0x4030, GIB_4 | 1);
    for installed in [0, 1, GIB_4] {
        t.installed = installed;
        for (address, answer) in that_freeze() {
            let request = dma(5, READ, address, 4, 0);
            t.would_freeze(request, answer, (2, answer[AT_REASON], address));
        }
        // A last word that does not allow writes, of a page below 4 GiB and of one above.
        for (index, word) in [(4, 0x4020), (6, 0x4030)] {
            let address = by_index(1, 1, index);
            let answer = refuse_at(word, 8, 3);
            t.would_freeze(dma(5, WRITE, address, 4, 0), answer, (2, 8, address));
        }
        t.keeps(dma(5, READ, by_index(1, 1, 1) | 0xFFF, 2, 0), refuse(2, 0));
        t.keeps(dma(6, READ, by_index(1, 1, 1), 4, 0), refuse(3, 0));
        let mut stopped = t.clone();
        stopped.state[8] = 2;
        stopped.keeps(dma(5, READ, by_index(1, 1, 1), 4, 0), refuse(4, 0));
        // A bypass: outside its range, and a bad one.
        for (end, reason) in [(1, 7), (0, 6)] {
            t.set_entry(2, SECOND, [0, end, 1, 0]);
            let address = 1 << 59 | 0x100_0000;
            let request = dma(5, READ, address, 4, 0);
            t.would_freeze(request, refuse(reason, 0), (2, reason, address));
        }
        t.set_entry(2, SECOND, [0; 4]);
    }
}

#[test]
fn table_words_above_the_installed_size() {
    // Tables at 0x2000, 0x3000 and 0x4000; one page is installed, and memory is longer than that.
    let mut t = of_three_levels();
    t.set_word(0x4008, 3);
    for installed in [4, 0x1000, 0x2008] {
        t.installed = installed;
        t.keeps(dma(5, READ, by_index(1, 1, 1), 4, 0), pass(0, 2, 3));
    }
    // The page of the tables themselves: one byte more is 17.
    t.set_word(0x4008, 0x4003);
    let request = dma(5, READ, by_index(1, 1, 1), 8, 0);
    under(&t, &[0x4000, 0x4007], request, None, 3);
    under(&t, &[0x4008], request, Some(0x4000), 3);
}

#[test]
fn installed_size_of_nothing() {
    // Every DMA that would pass is 17; MSI, loads, stores, messages and firmware are as before.
    let mut t = of_the_cases();
    t.installed = 0;
    t.set_entry(2, SECOND, [0, 1, 1, 0]);
    t.set_word(0x2000, 3);
    t.set_interrupt(7, [2, 0x42, 5, 0]);
    t.set_m32([GIB_4, 0x1000_0000, 0x8000_0000]);
    t.set_m64(0, [1 << 40, 1 << 28, 1, 2]);
    for (address, words) in [(0, 1), (1 << 59, 0)] {
        for direction in [READ, WRITE] {
            let request = dma(5, direction, address, 1, 0);
            t.would_freeze(request, refuse(17, words), (2, 17, address));
        }
    }
    for address in [0x1000_0000_0000_0070, 0xFFFF_0070] {
        let request = dma(5, WRITE, address, 4, 0);
        t.clone().check(request, msi(7, 0x42, 5), &[Interrupt(31, 2)]);
    }
    t.check(dma(5, WRITE, 0xFFFF_0070, 4, 0), msi(7, 0x42, 5), &[Interrupt(31, 2)]);
    t.check(end(7), done(), &[Interrupt(31, 0)]);
    t.check(priority(7, 6), done(), &[Interrupt(30, 6)]);
    t.keeps(load(GIB_4 + 0x10, 4), pass(0x8000_0010, 0, 0));
    t.keeps(store((1 << 40) + 8, 8), pass((1 << 40) + 8, 2, 0));
    t.freezes(error(5), done(), &[(2, 12, 5)]);
    t.check(clear(2, DMA_BIT), done(), &[State(8, 1)]);
}

#[test]
fn installed_size_is_no_reason_1() {
    for installed in [0, 1, 7, 0xFFF, GIB_4 - 1, 1 << 63, u64::MAX] {
        // The first DMA of every kind of request goes to 0xABCDEFFC, and stops the PE where that is
        // not installed.
        let mut t = Tables { installed, ..largest() };
        let mut answers = [0; ANSWER_WORDS];
        assert_eq!(t.serve(&of_every_kind()[0], &mut answers), 1);
        let passes = installed > 0xABCD_EFFF;
        assert_eq!(answers, if passes { pass(0xABCD_EFFC, 255, 1) } else { refuse(17, 1) });
        // A length that is wrong is 1 under every size.
        let mut short = Tables { installed, ..largest() };
        short.state.truncate(1_024);
        refuses_all("state one short", short);
    }
}

#[test]
fn installed_in_a_list() {
    // PE 2 is stopped alone, its record is of the first refusal after each clear of it, and the DMA
    // bit alone lets the next DMA be asked. PE 3, its peer, goes on.
    let mut t = with_state([0; 4]);
    t.requesters[6] = 3;
    t.set_entry(3, FIRST, [0xFF, 0x101, 1, 0]);
    let above = dma(5, READ, by_index(1, 1, 5) | 0xABC, 4, 0);
    let below = dma(5, WRITE, by_index(1, 1, 1) | 0xABC, 4, 0);
    let served = [
        (below, pass(0x9ABC, 2, 3)),
        (above, refuse(17, 3)),
        (below, refuse(4, 0)),
        (above, refuse(4, 0)),
        (dma(6, READ, 0xFFFE_FFFF, 1, 0), pass(0xFFFE_FFFF, 3, 0)),
        (clear(2, DMA_BIT), done()),
        (below, pass(0x9ABC, 2, 3)),
        (dma(5, READ, by_index(2, 1, 1), 4, 0), refuse_at(0x2010, 8, 1)),
        (clear(2, DMA_BIT), done()),
        (clear(2, RECORD), done()),
        (above, refuse(17, 3)),
        (clear(2, MMIO_BIT), done()),
        (dma(6, WRITE, GIB_4, 1, 0), refuse(17, 0)),
        (dma(6, READ, 0xFFFE_FFFF, 1, 0), refuse(4, 0)),
    ];
    let (requests, answers): (Vec<RequestWords>, Vec<AnswerWords>) = served.into_iter().unzip();
    let mut changes = frozen(2, 17, by_index(1, 1, 5) | 0xABC, 0).to_vec();
    changes[0] = State(8, 2);
    changes.extend(frozen(3, 17, GIB_4, 0));
    t.check_list(&requests, &answers, &changes);
}

// ---- The fence ----

/// The place of the fence word where N is 4.
const FENCE_AT: usize = 16;

/// Fence words: the fence is set, and clear.
const FENCED: [u64; 4] = [1, 3, 0x8000_0000_0000_0001, u64::MAX];
const UNFENCED: [u64; 4] = [0, 2, 0x8000_0000_0000_0000, u64::MAX - 1];

/// The tables of `with_state`, on which requester 6 is PE 3 and requester 7 is none. Interrupt 7 is
/// PE 2's; segment 3 of M32 is PE 2's, segment 4 is nobody's, and M64 0 is PE 3's. PE 3 is stopped.
fn of_the_fence() -> Tables {
    let mut t = with_state([0; 4]);
    t.requesters[6] = 3;
    t.requesters[7] = 4;
    t.set_interrupt(7, [2, 0x42, 5, 0]);
    t.set_m32([0x1_0000_0000, 0x1000_0000, 0x8000_0000]);
    t.segments[3] = 2;
    t.segments[4] = 4;
    t.set_m64(0, [1 << 40, 1 << 28, 1, 3]);
    t.state[12..16].copy_from_slice(&[3, 12, 6, 0]);
    t
}

/// The rows of `docs/HOST.md`, 'The fence'.
#[test]
fn fence_one_after_the_other() {
    let mut t = of_the_cases();
    t.set_word(0x2018, 0x1234_5003);
    t.set_m32([0x1_0000_0000, 0x1000_0000, 0x8000_0000]);
    let read = dma(5, READ, 0x3ABC, 4, 0);
    t.check(fatal(5), done(), &[State(16, 1)]);
    t.keeps(read, refuse(18, 0));
    t.keeps(dma(5, READ, 0x3FFF, 2, 0), refuse(2, 0));
    t.keeps(load(0x1_0030_0010, 4), fenced_ones(0xFFFF_FFFF));
    t.keeps(store(0x10, 2), fenced_drop());
    t.keeps(error(5), refuse(18, 0));
    t.keeps(fatal(8), refuse(3, 0));
    t.check(fence_clear(), done(), &[State(16, 0)]);
    t.keeps(read, pass(0x1234_5ABC, 2, 1));
}

#[test]
fn fence_stops_dma_and_msi() {
    let good = by_index(1, 1, 1);
    // Those that would freeze, pass, be presented, be of a stopped PE or of no PE.
    let mut stops: Vec<RequestWords> = that_freeze().map(|(a, _)| dma(5, READ, a, 4, 0)).to_vec();
    for requester in [5, 6, 7, 8, 0x1_0005, u64::MAX] {
        stops.push(dma(requester, READ, good, 4, 0));
        stops.push(dma(requester, WRITE, good, 4_096, 0xFFFF_FFFF));
        stops.push(dma(requester, WRITE, 0xFFFF_0070, 4, 0));
        stops.push(dma(requester, WRITE, 0x1000_0000_0000_0070, 4, 0));
        stops.push(dma(requester, READ, u64::MAX, 1, 0));
    }
    let malformed = [(good, 0), (good, 4_097), (good | 0xFFF, 2), (0xFFFF_0070, 0), (u64::MAX, 2)];
    let mut t = of_the_fence();
    for fence in FENCED {
        *t.fence() = fence;
        t.check_list(&stops, &vec![refuse(18, 0); stops.len()], &[]);
        for (address, length) in malformed {
            for requester in [5, 6, 7, 8] {
                t.keeps(dma(requester, WRITE, address, length, 0), refuse(2, 0));
            }
        }
    }
    // The other bits are no fence.
    for fence in UNFENCED {
        *t.fence() = fence;
        for (address, answer) in that_freeze() {
            let request = dma(5, READ, address, 4, 0);
            t.would_freeze(request, answer, (2, answer[AT_REASON], address));
        }
        t.keeps(dma(5, READ, good, 4, 0), pass(0x9000, 2, 3));
        t.keeps(dma(6, READ, good, 4, 0), refuse(4, 0));
        t.keeps(dma(7, READ, good, 4, 0), refuse(3, 0));
        let message = dma(5, WRITE, 0xFFFF_0070, 4, 0);
        t.clone().check(message, msi(7, 0x42, 5), &[Interrupt(31, 2)]);
    }
}

#[test]
fn fence_stops_loads_and_stores() {
    // A window of PE 2, of PE 3, which is stopped, of nobody, and none; without a fence.
    let unfenced = [
        (0x1_0030_0010, pass(0x8030_0010, 2, 0), pass(0x8030_0010, 2, 0)),
        ((1 << 40) + 8, ones(u64::MAX), dropped()),
        (0x1_0040_0000, refuse(10, 0), refuse(10, 0)),
        (0xFFFF_FFFF_FFFF_FFF0, refuse(10, 0), refuse(10, 0)),
    ];
    let mut t = of_the_fence();
    for (address, loaded, stored) in unfenced {
        for fence in FENCED {
            *t.fence() = fence;
            for (width, value) in [(1, 0xFF), (2, 0xFFFF), (4, 0xFFFF_FFFF), (8, u64::MAX)] {
                t.keeps(load(address, width), fenced_ones(value));
                t.keeps(store(address, width), fenced_drop());
                if width > 1 {
                    t.keeps(load(address + 1, width), refuse(2, 0));
                }
            }
            for width in [0, 3, 16, u64::MAX] {
                t.keeps(load(address, width), refuse(2, 0));
                t.keeps(store(address, width), refuse(2, 0));
            }
        }
        for fence in UNFENCED {
            *t.fence() = fence;
            t.keeps(load(address, 8), loaded);
            t.keeps(store(address, 8), stored);
        }
    }
}

#[test]
fn fence_stops_error_messages() {
    let mut t = of_the_fence();
    for fence in FENCED {
        *t.fence() = fence;
        for requester in [5, 6, 7, 8, 0x1_0005, u64::MAX] {
            t.keeps(error(requester), refuse(18, 0));
        }
    }
    for fence in UNFENCED {
        *t.fence() = fence;
        t.would_freeze(error(5), done(), (2, 12, 5));
        t.keeps(error(6), done());
        t.keeps(error(7), refuse(3, 0));
    }
}

#[test]
fn fatal_messages() {
    // Whatever the PE's words and its peers are, no word but the fence changes.
    for state in [[0; 4], [1, 0, 7, 7], [2, 12, 5, 0], [7, 0, 0, 0], [u64::MAX; 4]] {
        let mut t = of_the_fence();
        t.state[8..12].copy_from_slice(&state);
        t.peers[8..12].fill(u64::MAX);
        for fence in UNFENCED {
            *t.fence() = fence;
            t.clone().check(fatal(5), done(), &[State(FENCE_AT, fence | FENCE)]);
            t.clone().check(fatal(6), done(), &[State(FENCE_AT, fence | FENCE)]);
        }
        for fence in FENCED {
            *t.fence() = fence;
            t.keeps(fatal(5), done());
        }
        // An unknown requester.
        for fence in UNFENCED.into_iter().chain(FENCED) {
            *t.fence() = fence;
            for requester in [7, 8, 0x1_0005, (1 << 32) + 5, u64::MAX] {
                t.keeps(fatal(requester), refuse(3, 0));
            }
        }
    }
}

#[test]
fn fence_clears() {
    let mut t = of_the_fence();
    for fence in FENCED {
        *t.fence() = fence;
        t.clone().check(fence_clear(), done(), &[State(FENCE_AT, fence - 1)]);
    }
    for fence in UNFENCED {
        *t.fence() = fence;
        t.keeps(fence_clear(), done());
    }
}

#[test]
fn firmware_on_a_fenced_bridge() {
    let message = dma(5, WRITE, 0xFFFF_0070, 4, 0);
    for fence in FENCED.into_iter().chain(UNFENCED) {
        let mut t = of_the_fence();
        *t.fence() = fence;
        t.set_interrupt(7, [2, 0x42, 5, 3]);
        t.check(clear(3, MMIO_BIT), done(), &[State(12, 2)]);
        t.check(clear(3, DMA_BIT), done(), &[State(12, 0)]);
        t.check(clear(3, RECORD), done(), &[State(13, 0), State(14, 0)]);
        t.check(end(7), msi(7, 0x42, 5), &[Interrupt(31, 2)]);
        t.check(end(7), done(), &[Interrupt(31, 0)]);
        t.check(priority(7, 255), done(), &[Interrupt(30, 255)]);
        t.interrupts[31] = 1;
        t.check(priority(7, 6), msi(7, 0x42, 6), &[Interrupt(30, 6), Interrupt(31, 2)]);
        t.keeps(priority(7, 256), refuse(2, 0));
        for number in [8, u64::MAX] {
            t.keeps(end(number), refuse(14, 0));
            t.keeps(priority(number, 5), refuse(14, 0));
        }
        t.keeps(clear(4, DMA_BIT), refuse(14, 0));
        // What firmware released is served when the fence is clear.
        t.check(fence_clear(), done(), &[State(FENCE_AT, fence & !FENCE)]);
        t.check(message, held(7), &[Interrupt(31, 3)]);
        t.keeps(load((1 << 40) + 8, 8), pass((1 << 40) + 8, 3, 0));
    }
}

#[test]
fn fence_in_a_list() {
    let mut t = of_the_fence();
    *t.fence() = 0xF0;
    let good = dma(5, READ, by_index(1, 1, 1), 4, 0);
    let outside = dma(5, READ, 1 << 39, 4, 0);
    let message = dma(5, WRITE, 0xFFFF_0070, 4, 0);
    let window = 0x1_0030_0010;
    let served = [
        (good, pass(0x9000, 2, 3)),
        (fence_clear(), done()),
        (message, msi(7, 0x42, 5)),
        (fatal(8), refuse(3, 0)),
        (good, pass(0x9000, 2, 3)),
        // PE 3 is stopped and sends it all the same.
        (fatal(6), done()),
        (good, refuse(18, 0)),
        (message, refuse(18, 0)),
        (outside, refuse(18, 0)),
        (load(window, 8), fenced_ones(u64::MAX)),
        (store(window, 2), fenced_drop()),
        (error(5), refuse(18, 0)),
        (dma(5, READ, 0, 0, 0), refuse(2, 0)),
        (end(7), done()),
        (clear(3, MMIO_BIT), done()),
        (fatal(5), done()),
        (fatal(7), refuse(3, 0)),
        (good, refuse(18, 0)),
        (fence_clear(), done()),
        (good, pass(0x9000, 2, 3)),
        (load(window, 8), pass(0x8030_0010, 2, 0)),
        (load(1 << 40, 8), pass(1 << 40, 3, 0)),
        (dma(6, READ, 0, 4, 0), refuse(4, 0)),
        (message, msi(7, 0x42, 5)),
        (outside, refuse(7, 0)),
        (fatal(5), done()),
        (good, refuse(18, 0)),
    ];
    let mut changes = frozen(2, 7, 1 << 39, 0).to_vec();
    changes.extend([State(12, 2), State(FENCE_AT, 0xF1), Interrupt(31, 2)]);
    t.check_both_ways(&served, &changes);
}

#[test]
fn fence_at_the_sizes() {
    // N is 256: the fence word is word 1,024. Every PE lists all.
    let mut t = largest();
    t.peers.fill(u64::MAX);
    t.check(fatal(65_535), done(), &[State(1_024, 1)]);
    t.check(fence_clear(), done(), &[State(1_024, 0)]);
    *t.fence() = u64::MAX - 1;
    let mut after = vec![(255, 12, 65_535)];
    after.extend((0..255).map(|pe| (pe, 13, 255)));
    t.freezes(error(65_535), done(), &after);
    t.check(fatal(0), done(), &[State(1_024, u64::MAX)]);
    t.keeps(fatal(65_536), refuse(3, 0));
    // N is 1: it is word 4, and the PE's own words are another matter.
    let mut t = Tables::new(1, 0, 1, 0);
    t.state[..4].fill(u64::MAX);
    t.check(fatal(0), done(), &[State(4, 1)]);
    t.keeps(load(0, 8), fenced_ones(u64::MAX));
    t.keeps(error(0), refuse(18, 0));
    t.check(fence_clear(), done(), &[State(4, 0)]);
    t.keeps(load(0, 8), refuse(10, 0));
}

#[test]
fn fence_on_tables_of_wrong_lengths() {
    for fence in [FENCED[0], FENCED[3], UNFENCED[0], UNFENCED[3]] {
        let mut t = largest();
        *t.fence() = fence;
        refuses_all("N", Tables { pes: 255, ..t.clone() });
        t.state.push(fence);
        refuses_all("state one long", t.clone());
        t.state.truncate(1_024);
        refuses_all("state without the fence word", t);
    }
}

// ---- The geometries that Linux programs ----

#[test]
fn linux_two_levels_of_64_kib() {
    // A table has 8,192 words; a last table covers 512 MiB, the whole 2^42 bytes.
    let mut t = Tables::new(4, 0, 8, 0x8000);
    t.requesters[5] = 2;
    t.set_entry(2, FIRST, [0x1_0000, 2, 5, 5]);
    t.set_word(0x1_0000, 0x2_0003);
    t.set_word(0x1_0018, 0x3_0003);
    t.set_word(0x1_0028, 0x2_1003);
    t.set_word(0x1_FFF8, 0x3_0002);
    t.set_word(0x2_0000, 0x1);
    t.set_word(0x2_91A0, 0x3_5678_FFFF);
    t.set_word(0x3_FFF8, 0x000F_FFFF_FFFF_0003);
    t.keeps(dma(5, READ, 0, 1, 0), pass(0, 2, 2));
    t.keeps(dma(5, READ, 0x1234_BEEF, 4, 0), pass(0x3_5678_BEEF, 2, 2));
    t.keeps(dma(5, WRITE, 0x1234_0000, 4_096, 0), pass(0x3_5678_0000, 2, 2));
    // The last page of the 2 GiB window, and of all.
    t.keeps(dma(5, WRITE, 0x7FFF_FFFF, 1, 0), pass(0x000F_FFFF_FFFF_FFFF, 2, 2));
    t.keeps(dma(5, READ, 0x3FF_FFFF_FFFF, 1, 0), pass(0x000F_FFFF_FFFF_FFFF, 2, 2));
    t.would_freeze(dma(5, WRITE, 0, 1, 0), refuse_at(0x2_0000, 8, 2), (2, 8, 0));
    for (address, word) in [(0x8000_0000, 0x1_0020), (0xA000_0000, 0x1_0028)] {
        t.would_freeze(dma(5, READ, address, 1, 0), refuse_at(word, 8, 1), (2, 8, address));
    }
    t.would_freeze(dma(5, READ, 0x400_0000_0000, 1, 0), refuse(7, 0), (2, 7, 0x400_0000_0000));
}

#[test]
fn linux_4_kib_pages() {
    // Table code, bytes of a table, first address past one and past two levels.
    for (code, table, one, two) in [
        (3, 0x4000, 0x80_0000, 0x4_0000_0000),
        (4, 0x8000, 0x100_0000, 0x10_0000_0000),
        (5, 0x1_0000, 0x200_0000, 0x40_0000_0000),
        (6, 0x2_0000, 0x400_0000, 0x100_0000_0000),
    ] {
        let mut t = Tables::new(4, 0, 8, 0xC000);
        t.requesters[5] = 2;
        let base = table as u64;
        t.set_entry(2, FIRST, [base, 1, code, 1]);
        t.set_word(table, 0x1_2345_6003);
        t.set_word(2 * table - 8, 0x7_6543_2001);
        t.keeps(dma(5, WRITE, 0x678, 8, 0), pass(0x1_2345_6678, 2, 1));
        t.keeps(dma(5, READ, one - 1, 1, 0), pass(0x7_6543_2FFF, 2, 1));
        let last = refuse_at(2 * base - 8, 8, 1);
        t.would_freeze(dma(5, WRITE, one - 1, 1, 0), last, (2, 8, one - 1));
        t.would_freeze(dma(5, READ, 0x1000, 1, 0), refuse_at(base + 8, 8, 1), (2, 8, 0x1000));
        t.would_freeze(dma(5, READ, one, 1, 0), refuse(7, 0), (2, 7, one));
        // The same table below an upper one, from its last word.
        t.set_entry(2, FIRST, [0, 2, code, 1]);
        t.set_word(table - 8, base | 2);
        t.keeps(dma(5, READ, two - 1, 1, 0), pass(0x7_6543_2FFF, 2, 2));
        t.keeps(dma(5, WRITE, two - one, 4_096, 0), pass(0x1_2345_6000, 2, 2));
        t.would_freeze(dma(5, READ, 0, 1, 0), refuse_at(0, 8, 1), (2, 8, 0));
        t.would_freeze(dma(5, READ, two, 1, 0), refuse(7, 0), (2, 7, two));
        t.set_word(table - 8, (base + 0x1000) | 2);
        let upper = refuse_at(base - 8, 8, 1);
        t.would_freeze(dma(5, READ, two - 1, 1, 0), upper, (2, 8, two - 1));
        // A base that is no multiple of the table's bytes.
        t.set_entry(2, FIRST, [0x2000, 1, code, 1]);
        t.would_freeze(dma(5, READ, 0, 1, 0), refuse(6, 0), (2, 6, 0));
    }
}

#[test]
fn linux_one_level_of_256_mib() {
    // Bus address 4 GiB is system address 0: word 16 + k is page k. 512 words cover 128 GiB.
    let mut t = Tables::new(4, 8, 8, 0x400);
    t.requesters[5] = 2;
    t.set_entry(2, FIRST, [0x1000, 1, 1, 17]);
    for k in 0..496 {
        t.set_word(0x1080 + 8 * k, (k as u64) << 28 | 3);
    }
    t.keeps(dma(5, READ, 0x1_0000_0000, 1, 0), pass(0, 2, 1));
    t.keeps(dma(5, WRITE, 0x1_2345_6789, 4, 0), pass(0x2345_6789, 2, 1));
    t.keeps(dma(5, READ, 0x1_FFFF_0000, 4, 0), pass(0xFFFF_0000, 2, 1));
    t.keeps(dma(5, WRITE, 0x1F_FFFF_FFFF, 1, 0), pass(0x1E_FFFF_FFFF, 2, 1));
    let last = refuse_at(0x1078, 8, 1);
    t.would_freeze(dma(5, READ, 0xFFFE_FFFF, 1, 0), last, (2, 8, 0xFFFE_FFFF));
    t.would_freeze(dma(5, READ, 0x20_0000_0000, 1, 0), refuse(7, 0), (2, 7, 0x20_0000_0000));
    // The 32-bit MSI window is no page of the table.
    t.set_word(0x1078, 0xF000_0003);
    t.set_interrupt(1, [2, 9, 5, 0]);
    t.keeps(dma(5, WRITE, 0xFFFE_FFFF, 1, 0), pass(0xFFFE_FFFF, 2, 1));
    t.check(dma(5, WRITE, 0xFFFF_0010, 4, 0), msi(1, 9, 5), &[Interrupt(7, 2)]);
    // The bits of a word below the page size are ignored.
    t.set_word(0x1080, 0x0FFF_FFF3);
    t.keeps(dma(5, READ, 0x1_0000_0123, 1, 0), pass(0x123, 2, 1));
}

#[test]
fn linux_bypass() {
    // End in units of 16 MiB, and in bytes: 16, 64 and 256 GiB.
    for (end, bytes) in [(0x400, 0x4_0000_0000), (0x1000, 0x10_0000_0000), (0x4000, 0x40_0000_0000)]
    {
        let mut t = Tables::new(4, 0, 8, 0);
        t.requesters[5] = 2;
        t.set_entry(2, SECOND, [0, end, 1, 0]);
        let start: u64 = 0x0800_0000_0000_0000;
        t.keeps(dma(5, READ, start, 4_096, 0), pass(0, 2, 0));
        t.keeps(dma(5, WRITE, start + 0xFFFF_0070, 4, 3), pass(0xFFFF_0070, 2, 0));
        t.keeps(dma(5, WRITE, start + bytes - 1, 1, 0), pass(bytes - 1, 2, 0));
        for address in [start + bytes, 0x0FFF_FFFF_FFFF_FFFF] {
            t.would_freeze(dma(5, READ, address, 1, 0), refuse(7, 0), (2, 7, address));
        }
        t.would_freeze(dma(5, READ, 0, 1, 0), refuse(6, 0), (2, 6, 0));
    }
}

#[test]
fn linux_windows() {
    // M32 of 2 GiB at PCI 0x80000000 has segments of 8 MiB; M64 of 64 GiB has segments of 256 MiB.
    let mut t = Tables::new(256, 0, 8, 0);
    t.set_m32([0x3_FE00_8000_0000, 0x8000_0000, 0x8000_0000]);
    t.segments[1] = 3;
    t.segments[255] = 200;
    t.set_m64(0, [0x3_D000_0000_0000, 0x10_0000_0000, 2, 77]);
    t.set_m64(1, [0x3_D00F_F000_0000, 0x1000_0000, 1, 5]);
    t.keeps(load(0x3_FE00_807F_FFFC, 4), pass(0x807F_FFFC, 0, 0));
    t.keeps(store(0x3_FE00_8080_0000, 8), pass(0x8080_0000, 3, 0));
    t.keeps(load(0x3_FE00_FFFF_FFFF, 1), pass(0xFFFF_FFFF, 200, 0));
    t.keeps(load(0x3_FE01_0000_0000, 1), refuse(10, 0));
    t.keeps(load(0x3_D000_0000_0000, 8), pass(0x3_D000_0000_0000, 0, 0));
    t.keeps(store(0x3_D001_2345_6788, 8), pass(0x3_D001_2345_6788, 18, 0));
    // Where M64 0 and 1 overlap, 0 decides.
    t.keeps(load(0x3_D00F_FFFF_FFF8, 8), pass(0x3_D00F_FFFF_FFF8, 255, 0));
    t.windows[3 + 2] = 0;
    t.keeps(load(0x3_D00F_FFFF_FFF8, 8), pass(0x3_D00F_FFFF_FFF8, 5, 0));
}

// ---- Lists of requests ----

#[test]
fn list_each_after_the_last() {
    let mut t = of_the_cases();
    t.set_word(0x2018, 0x1234_5003);
    t.set_interrupt(7, [2, 0x42, 5, 0]);
    t.set_m64(0, [0x1000_0000, 0x1000_0000, 1, 2]);
    t.peers[8] = 1 << 3;
    let good = dma(5, READ, 0x3ABC, 4, 0);
    let outside = dma(5, READ, 0x20_0000, 4, 0);
    let message = dma(5, WRITE, 0xFFFF_0070, 4, 0);
    let served = [
        (good, pass(0x1234_5ABC, 2, 1)),
        (load(0x1000_0000, 8), pass(0x1000_0000, 2, 0)),
        (message, msi(7, 0x42, 5)),
        (error(5), done()),
        (good, refuse(4, 0)),
        (message, refuse(4, 0)),
        (load(0x1000_0000, 8), ones(u64::MAX)),
        (store(0x1000_0000, 8), dropped()),
        (clear(2, DMA_BIT), done()),
        (good, pass(0x1234_5ABC, 2, 1)),
        (message, held(7)),
        (store(0x1000_0000, 8), dropped()),
        (outside, refuse(7, 0)),
        (clear(2, RECORD), done()),
        (outside, refuse(4, 0)),
        (clear(2, DMA_BIT), done()),
        (outside, refuse(7, 0)),
        (clear(2, MMIO_BIT), done()),
        (store(0x1000_0000, 8), pass(0x1000_0000, 2, 0)),
        (end(7), msi(7, 0x42, 5)),
        (priority(7, 255), done()),
        (clear(3, DMA_BIT), done()),
    ];
    // PE 2 has the DMA bit and the last refusal's record, PE 3 the MMIO bit and its first record.
    let changes = [
        State(8, 2),
        State(9, 7),
        State(10, 0x20_0000),
        State(12, 1),
        State(13, 13),
        State(14, 2),
        Interrupt(30, 255),
        Interrupt(31, 2),
    ];
    t.check_both_ways(&served, &changes);
}

#[test]
fn list_lengths() {
    // Four error messages, from requesters that are PE 0 to 3; slices of 0 to 33 words.
    let mut before = Tables::new(4, 0, 4, 0);
    before.requesters = vec![0, 1, 2, 3];
    let requests = [error(0), error(1), error(2), error(3)].concat();
    let requests: Vec<u64> = requests.into_iter().chain([ERROR]).collect();
    for asked in 0..=33 {
        for room in 0..=33 {
            let mut t = before.clone();
            let mut answers = vec![UNWRITTEN; room];
            let count = t.serve(&requests[..asked], &mut answers);
            let whole = (asked / 8).min(room / 8);
            assert_eq!(count, whole, "{} request words, {} answer words", asked, room);
            let mut written = [done(); 4][..whole].concat();
            written.resize(room, UNWRITTEN);
            same("answers", &answers, &written);
            let mut after = before.clone();
            for pe in 0..whole {
                after.state[STATE_WORDS * pe..][..4].copy_from_slice(&[3, 12, pe as u64, 0]);
            }
            t.check_same(&after);
        }
    }
}

#[test]
fn list_of_many() {
    // 20,000 requests in one call: an MSI presents, holds or is ended by turns.
    let mut t = of_the_cases();
    t.set_interrupt(7, [2, 0x42, 5, 0]);
    let message = dma(5, WRITE, 0xFFFF_0070, 4, 0);
    let requests = [message, message, end(7), end(7)].repeat(5_000);
    let answers = [msi(7, 0x42, 5), held(7), msi(7, 0x42, 5), done()].repeat(5_000);
    t.check_list(&requests, &answers, &[]);
}

#[test]
fn list_of_none() {
    let mut t = of_the_cases();
    t.check_list(&[], &[], &[]);
    // No whole request, no room for a whole answer.
    let before = t.clone();
    let mut answers = [UNWRITTEN; 16];
    assert_eq!(t.serve(&error(5)[..7], &mut answers), 0);
    assert_eq!(t.serve(&[], &mut answers), 0);
    assert_eq!(t.serve(&error(5), &mut answers[..7]), 0);
    assert_eq!(t.serve(&error(5), &mut []), 0);
    assert_eq!(answers, [UNWRITTEN; 16]);
    t.check_same(&before);
    // Nor on tables of wrong lengths.
    refuses_all("wrong lengths", Tables { pes: 5, ..before.clone() });
    let mut t = Tables { pes: 5, ..before.clone() };
    t.check_list(&[], &[], &[]);
}

#[test]
fn words_outside_the_slices() {
    // Written slices within longer ones: the words before and after them stay.
    let mut t = Tables::new(4, 8, 8, 0x1000);
    t.requesters[5] = 2;
    t.set_interrupt(7, [2, 0x42, 5, 0]);
    t.peers[8..12].fill(u64::MAX);
    *t.fence() = 0xF0;
    let before = t.clone();
    let mut state = [&[UNWRITTEN; 8], &t.state[..], &[UNWRITTEN; 8]].concat();
    let mut interrupts = [&[UNWRITTEN; 8], &t.interrupts[..], &[UNWRITTEN; 8]].concat();
    let mut answers = [UNWRITTEN; 64];
    let asked = [
        dma(5, WRITE, 0xFFFF_0070, 4, 0),
        [9; 8],
        error(5),
        fence_clear(),
        fatal(5),
        dma(5, WRITE, 0xFFFF_0070, 4, 0),
    ];
    let count = run(
        4,
        8,
        8,
        t.installed,
        &t.requesters,
        &t.entries,
        &t.memory,
        &t.peers,
        &mut interrupts[8..40],
        &t.windows,
        &t.segments,
        &mut state[8..25],
        &asked.concat(),
        &mut answers[8..56],
    );
    assert_eq!(count, 6);
    let guard = [UNWRITTEN; 8];
    let given = [msi(7, 0x42, 5), refuse(2, 0), done(), done(), done(), refuse(18, 0)];
    same("answers", &answers, &[&guard, &given.concat()[..], &guard].concat());
    let peer = [3, 13, 2, 0];
    let frozen = [peer, peer, [3, 12, 5, 0], peer].concat();
    same("state", &state, &[&guard, &frozen[..], &[0xF1], &guard].concat());
    t.interrupts[31] = 2;
    same("interrupts", &interrupts, &[&guard, &t.interrupts[..], &guard].concat());
    t.interrupts[31] = 0;
    t.check_same(&before);
}

// ---- Words that name no request ----

/// Each is one word off a request that would freeze, write or pass.
fn unnamed() -> [RequestWords; 16] {
    [
        edit(0x403, 0),
        invalidate_pe(2),
        [(1 << 32) + FATAL, 5, 0, 0, 0, 0, 0, 0],
        [(1 << 32) + FENCE_CLEAR, 0, 0, 0, 0, 0, 0, 0],
        [(1 << 32) + ERROR, 5, 0, 0, 0, 0, 0, 0],
        [u64::MAX; 8],
        dma(5, 2, 0x3ABC, 4, 0),
        dma(5, 1 << 32, 0x3ABC, 4, 0),
        dma(5, u64::MAX, 0x3ABC, 4, 0),
        dma(5, READ, 0x3ABC, 4, 1 << 32),
        dma(5, WRITE, 0xFFFF_0070, 4, 1 << 32),
        dma(5, READ, 0x20_0000, 4, u64::MAX),
        dma(8, READ, 0x3ABC, 4, 1 << 32),
        clear(2, 3),
        clear(2, (1 << 32) + DMA_BIT),
        clear(4, u64::MAX),
    ]
}

#[test]
fn words_that_name_no_request() {
    let mut t = of_the_cases();
    t.set_word(0x2018, 0x1234_5003);
    t.set_interrupt(7, [2, 0x42, 5, 0]);
    t.state[8] = 4;
    t.check_list(&unnamed(), &[refuse(2, 0); 16], &[]);
    for request in unnamed() {
        t.keeps(request, refuse(2, 0));
    }
    // Also on a bridge that is fenced.
    let mut fenced = t.clone();
    *fenced.fence() = 5;
    fenced.check_list(&unnamed(), &[refuse(2, 0); 16], &[]);
    // 1 comes first.
    let mut short = t.clone();
    short.state.pop();
    short.check_list(&unnamed(), &[refuse(1, 0); 16], &[]);
    // Also while the PE is stopped, and between other requests.
    t.check_list(
        &[error(5), dma(5, 2, 0x3ABC, 4, 0), clear(2, DMA_BIT), clear(2, 3), [9; 8]],
        &[done(), refuse(2, 0), done(), refuse(2, 0), refuse(2, 0)],
        &[State(8, 5), State(9, 12), State(10, 5)],
    );
}

#[test]
fn words_that_are_not_read() {
    let mut t = of_the_cases();
    t.set_word(0x2018, 0x1234_5003);
    t.set_interrupt(7, [2, 0x42, 5, 0]);
    t.set_m64(0, [0x1000_0000, 0x1000_0000, 1, 2]);
    let served = [
        (dma(5, READ, 0x3ABC, 4, 0xFFFF_FFFF), 6, pass(0x1234_5ABC, 2, 1)),
        (load(0x1000_0000, 8), 3, pass(0x1000_0000, 2, 0)),
        (store(0x1000_0000, 8), 3, pass(0x1000_0000, 2, 0)),
        (clear(2, RECORD), 3, done()),
        (end(7), 2, done()),
        (priority(7, 5), 3, done()),
        (fence_clear(), 1, done()),
    ];
    for (mut request, used, answer) in served {
        request[used..].fill(u64::MAX);
        t.keeps(request, answer);
    }
    let mut request = error(5);
    request[2..].fill(u64::MAX);
    t.freezes(request, done(), &[(2, 12, 5)]);
    let mut request = fatal(5);
    request[2..].fill(u64::MAX);
    t.check(request, done(), &[State(FENCE_AT, FENCE)]);
}

// ---- The translation cache ----

/// A bridge with a cache.
struct WithCache {
    tables: Tables,
    cache: Vec<u64>,
}

/// What an operation leaves beside the state: a memory word by its address, or a slot.
#[derive(Clone, Copy)]
enum Left {
    Word(usize, u64),
    Slot(usize, [u64; SLOT_WORDS]),
}
use Left::{Slot, Word};

impl WithCache {
    fn serve(&mut self, requests: &[u64], answers: &mut [u64]) -> usize {
        let t = &mut self.tables;
        cached_run(
            t.pes,
            t.interrupt_count,
            t.requester_count,
            t.installed,
            &t.requesters,
            &t.entries,
            &mut t.memory,
            &t.peers,
            &mut t.interrupts,
            &t.windows,
            &t.segments,
            &mut t.state,
            &mut self.cache,
            requests,
            answers,
        )
    }

    /// One operation: this answer, these words and slots left and all others kept; and in the state
    /// these.
    #[track_caller]
    fn check(
        &mut self,
        request: RequestWords,
        answer: AnswerWords,
        left: &[Left],
        state: &[Change],
    ) {
        let (mut after, mut cache) = (self.tables.clone(), self.cache.clone());
        for &left in left {
            match left {
                Word(address, value) => after.set_word(address, value),
                Slot(slot, words) => {
                    cache[SLOT_WORDS * slot..][..SLOT_WORDS].copy_from_slice(&words);
                }
            }
        }
        for &change in state {
            if let State(index, value) = change {
                after.state[index] = value;
            }
        }
        let mut given = [UNWRITTEN; ANSWER_WORDS];
        assert_eq!(self.serve(&request, &mut given), 1);
        assert_eq!(given, answer, "{request:x?}");
        self.tables.check_same(&after);
        same("cache", &self.cache, &cache);
    }

    #[track_caller]
    fn keeps(&mut self, request: RequestWords, answer: AnswerWords) {
        self.check(request, answer, &[], &[]);
    }
}

/// Case A, and case F as PE 1: requester 6, two levels from 0x4000.
fn with_cache() -> WithCache {
    let mut tables = of_the_cases();
    tables.set_word(0x2018, 0x1234_5003);
    tables.requesters[6] = 1;
    tables.set_entry(1, FIRST, [0x4000, 2, 1, 1]);
    tables.set_word(0x4010, 0x5001);
    tables.set_word(0x5018, 0x9003);
    WithCache { tables, cache: vec![0; CACHE_WORDS] }
}

const DROPPED: [u64; SLOT_WORDS] = [0; SLOT_WORDS];

/// The table of docs/HOST.md, 'Using the translation cache'.
#[test]
fn the_cache() {
    let mut t = with_cache();
    // Whatever the cache holds: full slots become zeros, and an empty one stays.
    t.cache[..8].copy_from_slice(&[9, 9, 9, 9, 0, 9, 9, 9]);
    t.check(invalidate_all(), done(), &[Slot(0, DROPPED)], &[]);
    let (read, write) = (dma(5, READ, 0x3ABC, 4, 0), dma(5, WRITE, 0x3ABC, 4, 0));
    // A miss, and hits. The slot of page 3 of PE 2 is 3 + 37 * 4.
    t.check(read, pass(0x1234_5ABC, 2, 1), &[Slot(151, [3, 0, 3, 0x1234_5003])], &[]);
    t.keeps(read, pass(0x1234_5ABC, 2, 1));
    t.keeps(write, pass(0x1234_5ABC, 2, 1));
    // An edit of the last word: now it allows reads alone. The write is a hit that forbids.
    let left = [Word(0x2018, 0x1234_5001), Slot(151, DROPPED)];
    t.check(edit(0x403, 0x1234_5001), done(), &left, &[]);
    t.check(read, pass(0x1234_5ABC, 2, 1), &[Slot(151, [3, 0, 3, 0x1234_5001])], &[]);
    t.check(write, refuse_at(0x2018, 8, 1), &[], &frozen(2, 8, 0x3ABC, 0x2018));
    t.keeps(read, refuse(4, 0));
    t.check(clear(2, DMA_BIT), done(), &[], &[State(8, 1)]);
    t.keeps(read, pass(0x1234_5ABC, 2, 1));
    // Two levels: page 0x403 of PE 1 has slot (0x403 + 37 * 2) mod 256. An edit of the upper word.
    let two = dma(6, WRITE, 0x40_3010, 4, 0);
    t.check(two, pass(0x9010, 1, 2), &[Slot(77, [2, 0, 0x403, 0x9003])], &[]);
    t.keeps(two, pass(0x9010, 1, 2));
    let left = [Word(0x4010, 0x5003), Slot(77, DROPPED)];
    t.check(edit(0x802, 0x5003), done(), &left, &[]);
    t.check(two, pass(0x9010, 1, 2), &[Slot(77, [2, 0, 0x403, 0x9003])], &[]);
    // With the value that is there it drops too; a word that no walk reads drops nothing.
    t.check(edit(0x802, 0x5003), done(), &[Slot(77, DROPPED)], &[]);
    t.check(two, pass(0x9010, 1, 2), &[Slot(77, [2, 0, 0x403, 0x9003])], &[]);
    t.check(edit(0x803, 7), done(), &[Word(0x4018, 7)], &[]);
    t.keeps(edit(0x1000, 7), refuse(2, 0));
    // Invalidates: another page, the page, a PE without slots, a PE, PEs that are not there.
    t.keeps(invalidate_address(2, 0x4ABC), done());
    t.check(invalidate_address(2, 0xF000_0000_0000_3FFF), done(), &[Slot(151, DROPPED)], &[]);
    t.keeps(invalidate_pe(2), done());
    t.keeps(invalidate_pe(4), refuse(14, 0));
    t.keeps(invalidate_address(4, 0x3ABC), refuse(14, 0));
    t.keeps([INVALIDATE, 3, 1, 0, 0, 0, 0, 0], refuse(2, 0));
    t.check(invalidate_pe(1), done(), &[Slot(77, DROPPED)], &[]);
    t.keeps(invalidate_all(), done());
}

/// The slots at the ends of the rule, and pages of one slot.
#[test]
fn slots_of_the_cache() {
    let mut t = with_cache();
    let fill = |t: &mut WithCache, request, answer, slot, words| {
        t.check(request, answer, &[Slot(slot, words)], &[]);
        t.keeps(request, answer);
    };
    t.tables.set_entry(0, FIRST, [0, 5, 1, 1]);
    t.tables.set_entry(0, SECOND, [0, 5, 1, 1]);
    t.tables.set_word(0, 3);
    t.tables.set_word(0xFF8, 3);
    t.tables.requesters[0] = 0;
    let read = |address| dma(0, READ, address, 1, 0);
    // Page 0 of PE 0, by the first record and by the second.
    fill(&mut t, read(0), pass(0, 0, 5), 0, [1, 0, 0, 3]);
    fill(&mut t, read(1 << 59), pass(0, 0, 5), 37, [1, 1, 0, 3]);
    // The last page of five levels: 45 bits.
    let last = (1 << 45) - 1;
    fill(&mut t, read(last << 12 | 0xFFF), pass(0xFFF, 0, 5), 255, [1, 0, last, 3]);
    // Page 0x1FF has the slot of that page.
    fill(&mut t, read(0x1F_F000), pass(0, 0, 5), 255, [1, 0, 0x1FF, 3]);
    // The word at 0 is in all these walks.
    let left = [Word(0, 1), Slot(0, DROPPED), Slot(37, DROPPED), Slot(255, DROPPED)];
    t.check(edit(0, 1), done(), &left, &[]);
    // A page of 256 MiB with MSI addresses in it: by address they name the page.
    t.tables.set_entry(2, FIRST, [0x2000, 1, 1, 17]);
    t.tables.set_word(0x2078, 3);
    let dma = dma(5, READ, 0xF000_0000, 1, 0);
    fill(&mut t, dma, pass(0, 2, 1), 163, [3, 0, 15, 3]);
    t.check(invalidate_address(2, 0xFFFF_0000), done(), &[Slot(163, DROPPED)], &[]);
}

/// On contents that no DMA put there, by the words of the slots.
#[test]
fn any_contents_of_the_cache() {
    let read = dma(5, READ, 0x3ABC, 4, 0);
    let with = |slot: usize, words: [u64; SLOT_WORDS]| {
        let mut t = with_cache();
        t.cache[SLOT_WORDS * slot..][..SLOT_WORDS].copy_from_slice(&words);
        t
    };
    let filled = Slot(151, [3, 0, 3, 0x1234_5003]);
    // Another word than memory has is a hit, and fills nothing else.
    with(151, [3, 0, 3, 0x7777_7001]).keeps(read, pass(0x7777_7ABC, 2, 1));
    // One that forbids is walked, and the pass fills.
    with(151, [3, 0, 3, 0x7777_7002]).check(read, pass(0x1234_5ABC, 2, 1), &[filled], &[]);
    // Another PE, half or page; an empty slot; the page in another slot.
    for words in [[2, 0, 3], [3, 1, 3], [3, 0, 259], [3, 0, 3 + (1 << 32)], [0, 0, 3]] {
        let [pe, half, page] = words;
        let mut t = with(151, [pe, half, page, 0x7777_7003]);
        t.check(read, pass(0x1234_5ABC, 2, 1), &[filled], &[]);
    }
    with(150, [3, 0, 3, 0x7777_7003]).check(read, pass(0x1234_5ABC, 2, 1), &[filled], &[]);
    // An edit drops by the walk of what the slot holds, in whatever slot; of a page above the window the
    // low bits count. No walk: a PE or a half that is not there, a record that is not one of pages.
    for page in [3, 3 + 512, 3 + (1 << 63)] {
        let left = [Word(0x2018, 0), Slot(7, DROPPED)];
        with(7, [3, 0, page, 0]).check(edit(0x403, 0), done(), &left, &[]);
    }
    for slot in [[5, 0, 3, 3], [0, 0, 3, 3], [3, 2, 3, 3], [3, 1, 3, 3], [1, 0, 3, 3]] {
        with(7, slot).check(edit(0x403, 0), done(), &[Word(0x2018, 0)], &[]);
    }
    // An invalidate drops in whatever slot, by PE whatever the half, by address above the window too.
    with(7, [3, 0, 3, 3]).check(invalidate_address(2, 0x3000), done(), &[Slot(7, DROPPED)], &[]);
    with(7, [3, 9, 9, 9]).check(invalidate_pe(2), done(), &[Slot(7, DROPPED)], &[]);
    let above = invalidate_address(2, 0x20_3000);
    with(7, [3, 0, 0x203, 3]).check(above, done(), &[Slot(7, DROPPED)], &[]);
    with(7, [3, 0, 3, 3]).keeps(above, done());
    // The second record of PE 2 is disabled: it has no pages to name. PE 4 is not there.
    with(7, [3, 1, 3, 3]).keeps(invalidate_address(2, 1 << 59 | 0x3000), done());
    with(7, [5, 0, 3, 3]).keeps(invalidate_pe(4), refuse(14, 0));
    // Another length is 1, for every kind.
    for length in [0, CACHE_WORDS - 1, CACHE_WORDS + 1] {
        let mut t = with_cache();
        t.cache.resize(length, 1);
        for request in [read, load(0, 1), edit(0, 0), edit(0x1000, 0), invalidate_all(), [9; 8]] {
            t.keeps(request, refuse(1, 0));
        }
    }
}
