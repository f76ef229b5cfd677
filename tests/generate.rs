// A seeded replay input.
//
//     generate SEED LINES
//
// Writes about LINES lines to standard output; the same seed gives the same bytes
// on every machine. The input is a series of bridges: of each a size line, good tables
// for several PEs, then requests on them mixed with changes of the tables and damaged lines. A fence
// is cleared again after a few requests.

mod random;

use random::Random;
use std::env;
use std::io::{self, BufWriter, Write};
use std::mem;
use std::process;

const TABLES: [&str; 8] =
    ["requesters", "translation", "memory", "peers", "interrupts", "windows", "segments", "state"];
const REQUESTERS: usize = 0;
const TRANSLATION: usize = 1;
const MEMORY: usize = 2;
const PEERS: usize = 3;
const INTERRUPTS: usize = 4;
const WINDOWS: usize = 5;
const SEGMENTS: usize = 6;
const STATE: usize = 7;

const MAX: u64 = u64::MAX;
const PAGE_CODES: [u64; 4] = [1, 5, 13, 17];
/// Bit 59 picks the second record of a PE.
const SECOND: u64 = 1 << 59;
/// State words of each PE. The fence word comes after those of all PEs; bit 0 of it is the fence.
const STATE_WORDS: u64 = 4;
const FENCE: u64 = 1;
/// The installed size of the replay program: 4 GiB, a multiple of every page size.
const INSTALLED: u64 = 1 << 32;

/// An address of the DMA class that was good when its tables were built.
#[derive(Clone, Copy)]
struct Known {
    pe: u64,
    address: u64,
    /// Bits of the page, and of the page and all indexes. Equal for a bypass.
    page_bits: u64,
    window_bits: u64,
    index_bits: u64,
}

struct Generator {
    random: Random,
    out: BufWriter<io::Stdout>,
    limit: u64,
    lines: u64,
    /// The last line, kept back so that its line feed may be left out.
    last: Option<Vec<u8>>,
    n: u64,
    m: u64,
    r: u64,
    words: u64,
    /// The tables as the set lines left them, in the order of TABLES.
    tables: Vec<Vec<u64>>,
    known: Vec<Known>,
    /// Interrupts that are asked for more often than others.
    frequent: Vec<u64>,
    /// PEs that are probably stopped, by bits.
    stopped: u64,
}

impl Generator {
    fn new(seed: u64, limit: u64) -> Generator {
        Generator {
            random: Random(seed),
            out: BufWriter::with_capacity(1 << 16, io::stdout()),
            limit,
            lines: 0,
            last: None,
            n: 0,
            m: 0,
            r: 0,
            words: 0,
            tables: vec![Vec::new(); 8],
            known: Vec::new(),
            frequent: Vec::new(),
            stopped: 0,
        }
    }

    // ---- Lines ----

    fn full(&self) -> bool {
        self.lines >= self.limit
    }

    /// Writes a line, whatever its bytes.
    fn put(&mut self, line: Vec<u8>) {
        if self.full() {
            return;
        }
        self.lines += 1;
        if let Some(mut before) = self.last.replace(line) {
            before.push(b'\n');
            self.write(&before);
        }
    }

    fn write(&mut self, bytes: &[u8]) {
        if let Err(error) = self.out.write_all(bytes) {
            give_up(error);
        }
    }

    fn put_text(&mut self, line: String) {
        self.put(line.into_bytes());
    }

    /// A number in hexadecimal, sometimes with leading zeros.
    fn hex(&mut self, value: u64) -> String {
        match self.random.below(30) {
            0 => format!("{:016x}", value),
            1 => format!("{:0width$x}", value, width = self.random.between(1, 16) as usize),
            _ => format!("{:x}", value),
        }
    }

    /// A line of a word and numbers.
    fn numbers(&mut self, word: &str, numbers: &[u64]) -> String {
        let mut line = word.to_string();
        for &value in numbers {
            line.push('\t');
            line.push_str(&self.hex(value));
        }
        line
    }

    fn set_line(&mut self, table: usize, index: u64, value: u64) -> String {
        self.numbers(&format!("set\t{}", TABLES[table]), &[index, value])
    }

    /// Sets a word of a table; the value must fit.
    fn set(&mut self, table: usize, index: u64, value: u64) {
        let line = self.set_line(table, index, value);
        self.put_text(line);
        self.tables[table][index as usize] = value;
    }

    /// A word of a table; 0 if the index is off its limits.
    fn word(&self, table: usize, index: u64) -> u64 {
        let table = &self.tables[table];
        if index < table.len() as u64 {
            table[index as usize]
        } else {
            0
        }
    }

    fn dma_line(
        &mut self,
        requester: u64,
        write: bool,
        address: u64,
        length: u64,
        data: u64,
    ) -> String {
        let direction = if write { "w" } else { "r" };
        let requester = self.hex(requester);
        let rest = self.numbers("", &[address, length, data]);
        format!("dma\t{}\t{}{}", requester, direction, rest)
    }

    fn clear_line(&mut self, pe: u64, part: &str) -> String {
        let pe = self.hex(pe);
        format!("clear\t{}\t{}", pe, part)
    }

    // ---- The whole input ----

    fn run(&mut self) {
        self.before_size();
        while !self.full() {
            self.bridge();
        }
        self.finish()
    }

    /// Lines before the first good size line.
    fn before_size(&mut self) {
        for _ in 0..self.random.between(5, 40) {
            match self.random.weighted(&[70, 10, 10, 10]) {
                0 => {
                    let line = self.any_request();
                    self.put_text(line);
                }
                1 => {
                    let table = self.random.below(8) as usize;
                    let index = self.random.pick(&[0, 0, 1, 66, 255]);
                    let line = self.set_line(table, index, 0);
                    self.put_text(line);
                }
                2 => {
                    let line = self.size_off_limits();
                    self.put_text(line);
                }
                _ => self.damaged(),
            }
        }
    }

    /// The last line: with its line feed, without it, or with an empty line after it.
    fn finish(&mut self) {
        let ending: &[u8] = match self.random.below(5) {
            0 | 1 => b"",
            2 => b"\n\n",
            _ => b"\n",
        };
        if let Some(mut last) = self.last.take() {
            last.extend_from_slice(ending);
            self.write(&last);
        }
        if let Err(error) = self.out.flush() {
            give_up(error);
        }
    }

    /// A size line, good tables, and requests on them.
    fn bridge(&mut self) {
        self.size();
        self.build();
        let steps = self.random.between(500, 2_500);
        for step in 0..steps {
            if self.full() {
                return;
            }
            if step % 30 == 29 {
                self.release_all();
            }
            self.step();
        }
    }

    fn size(&mut self) {
        let n = match self.random.below(10) {
            0 => 1,
            1 => 16,
            2 => self.random.between(2, 16),
            _ => self.random.between(3, 8),
        };
        let m = match self.random.below(10) {
            0 => 0,
            1 => 1,
            2 | 3 => self.random.below(65),
            4 => 32,
            _ => 64,
        };
        let r = match self.random.below(10) {
            0 => 1,
            1 | 2 => self.random.between(1, 64),
            3 => 64,
            _ => self.random.between(8, 40),
        };
        let words = match self.random.below(12) {
            0 => self.random.pick(&[0, 1, 511, 512, 513]),
            1 => self.random.below(4_097),
            2 => 4_095,
            _ => 4_096,
        };
        self.put_size(n, m, r, words)
    }

    fn put_size(&mut self, n: u64, m: u64, r: u64, words: u64) {
        let line = self.numbers("size", &[n, m, r, words]);
        self.put_text(line);
        self.n = n;
        self.m = m;
        self.r = r;
        self.words = words;
        let lengths = [r, 8 * n, words, 4 * n, 4 * m, 67, 256, STATE_WORDS * n + 1];
        self.tables = lengths.iter().map(|&length| vec![0; length as usize]).collect();
        self.known.clear();
        self.stopped = 0;
        self.frequent = (0..3).map(|_| self.random.below(m)).collect();
    }

    // ---- Good tables ----

    fn build(&mut self) {
        for requester in 0..self.r {
            let pe = if requester < self.n && self.random.percent(80) {
                requester
            } else {
                self.some_requester_pe()
            };
            if pe != 0 {
                self.set(REQUESTERS, requester, pe);
            }
        }
        for pe in 0..self.n {
            for record in 0..2 {
                self.build_record(pe, record);
            }
            self.build_peers(pe);
        }
        for number in 0..self.m {
            self.build_interrupt(number);
        }
        self.build_windows();
        if self.random.percent(30) {
            for segment in 0..256 {
                let pe = self.some_segment_pe();
                self.set(SEGMENTS, segment, pe);
            }
        } else {
            for _ in 0..40 {
                let segment = self.random.below(256);
                let pe = self.some_segment_pe();
                self.set(SEGMENTS, segment, pe);
            }
        }
        if self.random.percent(30) {
            // Bits above the stop bits and above the fence, and error records.
            for pe in 0..self.n {
                let stop = self.random.next() & !3 | self.random.pick(&[0, 0, 0, 1, 2, 3]);
                self.set(STATE, STATE_WORDS * pe, stop);
                if self.random.percent(50) {
                    self.build_error_record(pe);
                }
            }
            self.set_fence(0);
        }
    }

    fn some_pe(&mut self) -> u64 {
        self.random.below(self.n)
    }

    /// A PE word: mostly a good one.
    fn some_pe_word(&mut self) -> u64 {
        let pe = self.some_pe();
        match self.random.below(40) {
            0 => self.n,
            1 => (1 << 16) + pe,
            2 => (1 << 32) + pe,
            3 => MAX,
            4 => 256 + pe,
            _ => pe,
        }
    }

    fn some_requester_pe(&mut self) -> u64 {
        match self.random.below(30) {
            0 => self.n,
            1 => 0xFFFF,
            2 => 256 + self.some_pe(),
            _ => self.some_pe(),
        }
    }

    fn some_segment_pe(&mut self) -> u64 {
        match self.random.below(16) {
            0 => self.n,
            1 => 0xFFFF,
            2 => 256 + self.some_pe(),
            _ => self.some_pe(),
        }
    }

    fn build_record(&mut self, pe: u64, record: u64) {
        let half = record * SECOND;
        self.known.retain(|known| known.pe != pe || known.address & SECOND != half);
        match self.random.weighted(&[68, 17, 15]) {
            0 => self.build_pages(pe, record),
            1 => self.build_bypass(pe, record),
            _ => {
                if self.random.percent(70) {
                    self.build_pages(pe, record);
                } else {
                    self.build_bypass(pe, record);
                }
                self.break_record(pe, record)
            }
        }
    }

    fn set_record(&mut self, pe: u64, record: u64, words: [u64; 4]) {
        for (place, &word) in (0..).zip(&words) {
            self.set(TRANSLATION, 8 * pe + 4 * record + place, word);
        }
    }

    /// A record of pages, with a few walks through its tables.
    fn build_pages(&mut self, pe: u64, record: u64) {
        let page_code = self.random.pick(&PAGE_CODES);
        let table_code = match self.random.weighted(&[55, 17, 8, 8, 9, 3]) {
            0 => 1,
            1 => 2,
            2 => 3,
            3 => 4,
            4 => self.random.between(5, 31),
            // The largest window: 59 bits.
            _ => match page_code {
                13 => 27,
                17 => 23,
                _ => 1,
            },
        };
        let page_bits = page_code + 11;
        let index_bits = table_code + 8;
        let most_levels = ((59 - page_bits) / index_bits).min(5);
        let levels = match self.random.below(6) {
            0 => most_levels.max(1),
            _ => self.random.between(1, most_levels.max(1)),
        };
        let table_words = 1 << index_bits;
        let tables = (self.words / table_words).max(1);
        let base = self.random.below(tables) * 8 * table_words;
        self.set_record(pe, record, [base, levels, table_code, page_code]);
        if most_levels == 0 || self.words == 0 {
            return;
        }

        for _ in 0..self.random.between(3, 7) {
            let mut table = base / 8;
            let mut address = record * SECOND;
            for level in (0..levels).rev() {
                let room = table_words.min(self.words - table);
                let mut index = 0;
                // Mostly a word that is free, or an upper one that leads on.
                for _ in 0..6 {
                    index = match self.random.below(6) {
                        0 => 0,
                        1 => room - 1,
                        2 => self.random.below(room.min(8)),
                        _ => self.random.below(room),
                    };
                    if self.word(MEMORY, table + index) == 0 || self.random.percent(20) {
                        break;
                    }
                }
                address |= index << (page_bits + level * index_bits);
                if level == 0 {
                    let word = self.last_word();
                    self.set(MEMORY, table + index, word);
                } else {
                    let old = self.word(MEMORY, table + index);
                    let leads_on = old & 3 != 0
                        && (old >> 12 << 12) % (8 * table_words) == 0
                        && (old >> 12 << 9) < self.words;
                    if !leads_on || self.random.percent(30) {
                        let word = self.upper_word(table_words);
                        self.set(MEMORY, table + index, word);
                    }
                    table = self.word(MEMORY, table + index) >> 12 << 9;
                }
            }
            let window_bits = page_bits + levels * index_bits;
            self.known.push(Known { pe, address, page_bits, window_bits, index_bits });
        }
    }

    /// The last word of a walk: mostly valid both ways and of a page that is installed, any bits
    /// below the page.
    fn last_word(&mut self) -> u64 {
        let valid = self.random.pick(&[1, 2, 3, 3, 3, 3, 3, 3, 3, 3]);
        let page = match self.random.below(16) {
            0 => INSTALLED - 1,
            1 => INSTALLED,
            2 => self.random.next(),
            3 => MAX,
            4 | 5 => self.random.next() & 0xFFFF_F000,
            _ => self.random.next() & (INSTALLED - 1),
        };
        page & !3 | valid
    }

    /// An upper word that leads to a table in memory.
    fn upper_word(&mut self, table_words: u64) -> u64 {
        let tables = (self.words / table_words).max(1);
        let base = self.random.below(tables) * 8 * table_words;
        let ignored = if self.random.percent(30) { self.random.next() & 0xFFC } else { 0 };
        base | ignored | self.random.between(1, 3)
    }

    fn build_bypass(&mut self, pe: u64, record: u64) {
        let top = 1 << 35;
        let (start, end) = match self.random.below(12) {
            0 => (0, 1),
            1 => (1, 2),
            2 => (0, top),
            3 => (top - 1, top),
            // Around the 32-bit MSI window, which ends at the installed size.
            4 | 5 => (255, 256),
            6 => (0, 256),
            7 => (255, 257),
            8 => (256, 257),
            9 => self.random.pick(&[(2, 5), (0x80, 0x90)]),
            10 => {
                let start = self.random.below(top);
                (start, start + 1)
            }
            _ => {
                let start = self.random.below(top);
                (start, self.random.between(start + 1, top))
            }
        };
        let table_code = self.random.pick(&[1, 1, 2, 30, 31]);
        self.set_record(pe, record, [start, end, table_code, 0]);
        let half = record * SECOND;
        let edges = [start << 24, (end << 24) - 1, (start << 24) + ((end - start) << 23)];
        for &offset in &edges {
            self.known.push(Known {
                pe,
                address: half | offset,
                page_bits: 24,
                window_bits: 24,
                index_bits: 9,
            });
        }
    }

    /// Breaks one word of a record.
    fn break_record(&mut self, pe: u64, record: u64) {
        // Few of its addresses are still asked for.
        let half = record * SECOND;
        let mut seen = 0;
        self.known.retain(|known| {
            let here = known.pe == pe && known.address & SECOND == half;
            seen += u64::from(here);
            !here || seen == 1
        });
        let at = 8 * pe + 4 * record;
        let base = self.word(TRANSLATION, at);
        let levels = self.word(TRANSLATION, at + 1);
        let bypass = self.word(TRANSLATION, at + 3) == 0;
        match self.random.below(8) {
            0 => {
                let code = self.random.pick(&[0, 32, 33, 64, 0x101, 1 << 32 | 1, MAX]);
                self.set(TRANSLATION, at + 2, code)
            }
            1 => {
                let code =
                    self.random.pick(&[2, 3, 4, 6, 9, 12, 14, 16, 18, 18, 0x101, 1 << 32 | 1, MAX]);
                self.set(TRANSLATION, at + 3, code)
            }
            2 | 3 if bypass => {
                let end = self.random.pick(&[base, 0, (1 << 35) + 1, MAX, base.saturating_sub(1)]);
                self.set(TRANSLATION, at + 1, end)
            }
            4 if bypass => {
                let start =
                    self.random.pick(&[levels, levels.wrapping_add(1), MAX, 1 << 40, 1 << 59]);
                self.set(TRANSLATION, at, start)
            }
            2 => {
                let levels = self.random.pick(&[
                    0,
                    6,
                    7,
                    0x100 + levels % 8,
                    1 << 32 | levels % 8,
                    1 << 63,
                    MAX,
                ]);
                self.set(TRANSLATION, at + 1, levels)
            }
            3 | 4 => {
                let half = 4 << self.word(TRANSLATION, at + 2).saturating_add(8).min(40);
                let base = self.random.pick(&[base ^ 1, base ^ 8, base ^ half, MAX, 0x800]);
                self.set(TRANSLATION, at, base)
            }
            5 => {
                // Page and index bits that come to 60.
                let [levels, table_code, page_code] = self.random.pick(&[
                    [4, 1, 13],
                    [3, 4, 13],
                    [4, 4, 1],
                    [3, 8, 1],
                    [4, 3, 5],
                    [2, 8, 17],
                    [1, 24, 17],
                    [1, 28, 13],
                ]);
                self.set_record(pe, record, [0, levels, table_code, page_code])
            }
            6 => {
                // Far too many bits.
                let [levels, table_code, page_code] =
                    self.random.pick(&[[5, 31, 17], [5, 1, 5], [4, 1, 17], [2, 31, 1]]);
                self.set_record(pe, record, [0, levels, table_code, page_code])
            }
            _ => self.set_record(pe, record, [0; 4]),
        }
    }

    fn build_peers(&mut self, pe: u64) {
        match self.random.weighted(&[40, 25, 10, 10, 8, 7]) {
            0 => return,
            1 => {
                let peer = self.some_pe();
                self.set(PEERS, 4 * pe, 1 << peer);
            }
            2 => {
                let both = 1 << self.some_pe() | 1 << self.some_pe();
                self.set(PEERS, 4 * pe, both);
            }
            // In its own vector.
            3 => {
                let both = 1 << pe | 1 << self.some_pe();
                self.set(PEERS, 4 * pe, both);
            }
            4 => {
                let bits = self.random.next();
                self.set(PEERS, 4 * pe, bits);
            }
            // Only bits of N and above.
            _ => self.set(PEERS, 4 * pe, MAX << self.n),
        }
        if self.random.percent(30) {
            for word in 1..4 {
                let bits = self.random.pick(&[MAX, 1, 0xFFFF]);
                self.set(PEERS, 4 * pe + word, bits);
            }
        }
    }

    /// An error record of any reason, or words left over in an empty one.
    fn build_error_record(&mut self, pe: u64) {
        let reason = match self.random.below(8) {
            0..=3 => 0,
            4 => self.random.pick(&[99, MAX]),
            _ => self.random.between(1, 18),
        };
        let value = self.random.any();
        let word = self.random.pick(&[0, 8, 0x2FF8, MAX - 7, MAX]);
        for (place, word) in (1..).zip([reason, value, word]) {
            self.set(STATE, STATE_WORDS * pe + place, word);
        }
    }

    /// Sets the fence word: the fence set or clear, and any other bits.
    fn set_fence(&mut self, fence: u64) {
        let others = match self.random.below(4) {
            0 => MAX,
            1 => self.random.next(),
            _ => 0,
        };
        self.set(STATE, STATE_WORDS * self.n, others & !FENCE | fence)
    }

    /// A good interrupt, or one with a word off its limits.
    fn build_interrupt(&mut self, number: u64) {
        let off = if self.random.percent(12) { self.random.below(4) } else { 4 };
        for place in 0..4 {
            let value = if place == off {
                self.interrupt_word_off_limits(place)
            } else {
                self.interrupt_word(place)
            };
            if value != self.word(INTERRUPTS, 4 * number + place) {
                self.set(INTERRUPTS, 4 * number + place, value);
            }
        }
    }

    fn interrupt_word(&mut self, place: u64) -> u64 {
        match place {
            0 => self.some_pe(),
            1 => match self.random.below(10) {
                0 => (1 << 24) - 1,
                1 => 0,
                _ => self.random.below(1 << 24),
            },
            2 => match self.random.below(10) {
                0..=2 => 255,
                3 => 254,
                4 => 0,
                _ => self.random.below(256),
            },
            _ => self.random.below(4),
        }
    }

    fn interrupt_word_off_limits(&mut self, place: u64) -> u64 {
        let pe = self.some_pe();
        match place {
            0 => self.random.pick(&[self.n, (1 << 16) + pe, (1 << 32) + pe, 256 + pe, MAX]),
            1 => self.random.pick(&[1 << 24, 1 << 32, MAX]),
            2 => self.random.pick(&[256, 1 << 32 | 5, MAX]),
            _ => self.random.pick(&[4, 6, 1 << 32 | 1, MAX]),
        }
    }

    fn build_windows(&mut self) {
        self.build_m32();
        for window in 0..16 {
            if self.random.percent(75) {
                self.build_m64(window);
            }
        }
    }

    fn build_m32(&mut self) {
        let bits = self.random.pick(&[20, 21, 24, 28, 28, 30, 31, 32]);
        let mut size: u64 = 1 << bits;
        let mut base = match self.random.below(5) {
            0 => 0,
            1 => MAX - size + 1,
            2 => self.random.next() >> bits << bits,
            _ => self.random.below(64) << bits,
        };
        let mut pci = self.random.below(1 << (32 - bits)) << bits;
        match self.random.below(20) {
            0 => size = self.random.pick(&[0, 1, 1 << 33, size + 1, size - 1, MAX]),
            1 => size = 1 << 19,
            2 => {
                // No power of two, though base and PCI base are multiples of it.
                size = self.random.pick(&[3, 5]) << 20;
                base = self.random.below(64) * size;
                pci = self.random.below(64) * size;
            }
            3 => base ^= self.random.pick(&[1, 8, size / 2]),
            4 => pci ^= self.random.pick(&[1, 8, size / 2]),
            5 | 6 => {
                pci = self.random.pick(&[1 << 32, MAX - size + 1, MAX - size + 1, 1 << 33, MAX])
            }
            7 => return,
            _ => {}
        }
        self.set(WINDOWS, 0, base);
        self.set(WINDOWS, 1, size);
        self.set(WINDOWS, 2, pci)
    }

    fn build_m64(&mut self, window: u64) {
        let bits = self.random.pick(&[28, 28, 29, 32, 36, 40, 49, 50]);
        let mut size: u64 = 1 << bits;
        let mut base = match self.random.below(10) {
            0 => 0,
            1 => MAX - size + 1,
            // A place of its own.
            2..=6 => (window + 1) << 50 | self.random.below(1 << (50 - bits)) << bits,
            // Over another window.
            7 => self.word(WINDOWS, 0) >> bits << bits,
            _ => {
                let other = self.random.below(16);
                self.word(WINDOWS, 3 + 4 * other) >> bits << bits
            }
        };
        let mode = match self.random.weighted(&[45, 35, 6, 6, 8]) {
            0 => 1,
            1 => 2,
            2 => 0,
            3 => 7,
            _ => self.random.pick(&[3, 255, 1 << 32 | 1, 1 << 32 | 2, MAX]),
        };
        let pe = self.some_pe_word();
        match self.random.below(16) {
            0 => size = self.random.pick(&[0, 1, size + 1, size - 1, 1 << 63, MAX]),
            1 => {
                // Off the limits or no power of two, though the base is a multiple of it.
                size = self.random.pick(&[1 << 27, 1 << 51, 3 << 28]);
                base -= base % size;
            }
            2 => base ^= self.random.pick(&[1, 8, size / 2, 1 << 27]),
            _ => {}
        }
        let at = 3 + 4 * window;
        self.set(WINDOWS, at, base);
        self.set(WINDOWS, at + 1, size);
        self.set(WINDOWS, at + 2, mode);
        self.set(WINDOWS, at + 3, pe)
    }

    // ---- Requests ----

    fn step(&mut self) {
        let weights = [300, 60, 40, 40, 40, 40, 30, 170, 190, 20, 70, 80, 40, 50, 50, 4, 15, 1];
        match self.random.weighted(&weights) {
            0 => self.ask_dma(),
            1 => self.ask_dma_edge(),
            2 => self.ask_bad_word(),
            3 => self.ask_border(),
            4 => self.ask_class(),
            5 => self.ask_length(),
            6 => self.ask_requester(),
            7 => self.ask_msi(),
            8 => self.ask_window(),
            9 => self.ask_error(),
            10 => {
                let line = self.end_line();
                self.put_text(line)
            }
            11 => {
                let line = self.priority_line();
                self.put_text(line)
            }
            12 => {
                let line = self.any_clear();
                self.put_text(line)
            }
            13 => self.change(),
            14 => self.damaged(),
            15 => {
                let line = self.size_off_limits();
                self.put_text(line)
            }
            16 => self.ask_fenced(),
            _ => self.size_again(),
        }
    }

    /// The same size again: everything is 0 from here.
    fn size_again(&mut self) {
        let (n, m, r, words) = (self.n, self.m, self.r, self.words);
        self.put_size(n, m, r, words);
        for _ in 0..self.random.below(20) {
            let line = self.any_request();
            self.put_text(line);
        }
        self.build()
    }

    /// Requests of every kind while the fence is set, and often a PE is stopped. Rarely a size line
    /// clears it.
    fn ask_fenced(&mut self) {
        let pe = self.some_pe();
        if self.random.percent(60) {
            self.set(STATE, STATE_WORDS * pe, 3);
        }
        self.set_fence(FENCE);
        // Stopped PEs are not released before their requests.
        let stopped = mem::take(&mut self.stopped);
        for _ in 0..self.random.between(2, 9) {
            match self.random.below(10) {
                0 => self.ask_dma(),
                1 => {
                    let address = self.known_address().map_or(0, |known| known.address);
                    self.put_dma(pe, address)
                }
                2 => self.ask_length(),
                3 => self.ask_requester(),
                4 => self.ask_msi(),
                5 | 6 => self.ask_window(),
                7 => self.ask_error(),
                _ => {
                    let line = self.any_request();
                    self.put_text(line)
                }
            }
        }
        if self.random.percent(2) {
            return self.size_again();
        }
        self.stopped = stopped | 1 << pe;
        self.set_fence(0)
    }

    /// A requester of this PE, if there is one.
    fn requester_of(&mut self, pe: u64) -> u64 {
        let all: Vec<u64> = (0..self.r).filter(|&r| self.word(REQUESTERS, r) == pe).collect();
        if all.is_empty() {
            self.random.below(self.r)
        } else {
            self.random.pick(&all)
        }
    }

    /// A length that stays in the 4,096-byte block of the address.
    fn good_length(&mut self, address: u64) -> u64 {
        let room = 4_096 - address % 4_096;
        match self.random.below(6) {
            0 => room,
            1 => 1,
            2 => self.random.between(1, room),
            _ => room.min(4),
        }
    }

    fn data(&mut self) -> u64 {
        match self.random.below(8) {
            0 => 0xFFFF_FFFF,
            1 => self.random.next() & 0xFFFF_FFFF,
            2 => self.random.below(64),
            _ => 0,
        }
    }

    fn put_dma(&mut self, pe: u64, address: u64) {
        self.prepare(pe);
        let requester = self.requester_of(pe);
        let write = self.random.percent(50);
        let length = self.good_length(address);
        let data = self.data();
        let line = self.dma_line(requester, write, address, length, data);
        self.put_text(line)
    }

    fn known_address(&mut self) -> Option<Known> {
        if self.known.is_empty() {
            None
        } else {
            let place = self.random.below(self.known.len() as u64);
            Some(self.known[place as usize])
        }
    }

    fn ask_dma(&mut self) {
        let known = match self.known_address() {
            Some(known) => known,
            None => {
                let pe = self.some_pe();
                let address = self.random.next() >> self.random.between(4, 50);
                self.put_dma(pe, address);
                self.expect_freeze(pe);
                return;
            }
        };
        let in_page = match self.random.below(8) {
            0 => 0,
            1 => MAX,
            _ => self.random.next(),
        } & ((1 << known.page_bits) - 1);
        // A bypass address stays as it is; a page address has zeros below the page.
        let address = if known.page_bits == known.window_bits {
            known.address
        } else {
            known.address | in_page
        };
        self.put_dma(known.pe, address);
        if self.random.percent(50) {
            self.expect_freeze(known.pe);
        }
    }

    /// An address of this record that was good once.
    fn ask_record(&mut self, pe: u64, record: u64) {
        let half = record * SECOND;
        let known =
            self.known.iter().find(|known| known.pe == pe && known.address & SECOND == half);
        let address = known.map_or(half, |known| known.address);
        self.put_dma(pe, address);
        self.expect_freeze(pe);
    }

    /// Near the edges of a window, a page, a bypass, and the MSI window.
    fn ask_dma_edge(&mut self) {
        let known = match self.known_address() {
            Some(known) => known,
            None => return,
        };
        let half = known.address & SECOND;
        let size = 1 << known.window_bits;
        let low = SECOND - 1;
        let address = match self.random.below(12) {
            0 => half | size & low,
            1 => half | (size - 1),
            2 => half | (known.address & low).wrapping_add(size) & low,
            3 => half | (known.address & low).wrapping_sub(1) & low,
            4 => half | (known.address & low).wrapping_add(1) & low,
            5 => half | low,
            6 => known.address ^ SECOND,
            7 => known.address ^ 1 << self.random.below(60),
            8 => half | self.random.pick(&[0xFFFE_FFFF, 0xFFFE_F000, 0x1_0000_0000, 0x1_FFFF_0000]),
            9 => SECOND | self.random.pick(&[0xFFFF_0000, 0xFFFF_0070, 0xFFFF_FFFC]),
            // Another word of one of the tables.
            10 => {
                let level =
                    self.random.below((known.window_bits - known.page_bits) / known.index_bits);
                let bits = self.random.below(1 << known.index_bits.min(12));
                known.address ^ bits << (known.page_bits + level * known.index_bits)
            }
            _ => half | self.random.next() & (size - 1),
        };
        self.put_dma(known.pe, address);
        self.expect_freeze(known.pe);
    }

    /// A known address of a record of pages.
    fn known_page(&mut self) -> Option<Known> {
        self.known_address().filter(|known| known.page_bits < known.window_bits)
    }

    /// The place in memory of the word that the walk of a known page reads with so many levels
    /// below it.
    fn walked(&self, known: Known, below: u64) -> u64 {
        let index = |level| {
            known.address >> (known.page_bits + level * known.index_bits)
                & ((1 << known.index_bits) - 1)
        };
        let levels = (known.window_bits - known.page_bits) / known.index_bits;
        let base = self.word(TRANSLATION, 8 * known.pe + 4 * (known.address / SECOND));
        let mut at = base / 8 + index(levels - 1);
        for level in (below..levels - 1).rev() {
            at = (self.word(MEMORY, at) >> 12 << 9) + index(level);
        }
        at
    }

    /// A walk that stops at a chosen level: a word there, or before it, is made bad and then set
    /// back.
    fn ask_bad_word(&mut self) {
        let Some(known) = self.known_page() else { return };
        let levels = (known.window_bits - known.page_bits) / known.index_bits;
        let table_bytes = 8 << known.index_bits;
        let outside = (8 * self.words).next_multiple_of(table_bytes);
        let base = 8 * known.pe + 4 * (known.address / SECOND);
        if self.random.below(levels + 1) == levels {
            return self.ask_with(known, TRANSLATION, base, outside);
        }
        let stop = self.random.below(levels);
        let at = self.walked(known, stop);
        let old = self.word(MEMORY, at);
        let word = match self.random.below(3) {
            0 => old & !3,
            _ if stop == 0 => old & !self.random.between(1, 2),
            1 => outside | 3,
            // Misaligned where a table is larger than 4 KiB.
            _ => table_bytes / 2 | 3,
        };
        if at < self.words {
            self.ask_with(known, MEMORY, at, word)
        }
    }

    /// A DMA next to the installed size: at the end of the last page that is installed, or at the
    /// start of the one after it.
    fn ask_border(&mut self) {
        let Some(known) = self.known_page() else { return };
        let at = self.walked(known, 0);
        let last = (1 << known.page_bits) - 1;
        let (page, in_page) = if self.random.percent(50) {
            (INSTALLED - 1, last - self.random.pick(&[0, 1, 7, 4_094, 4_095]))
        } else {
            (INSTALLED, self.random.pick(&[0, 0, 0, 1, last]))
        };
        let word = page & !3 | self.random.pick(&[1, 2, 3, 3, 3, 3]);
        if at < self.words {
            let address = known.address | in_page;
            self.ask_with(Known { address, ..known }, MEMORY, at, word)
        }
    }

    /// A DMA while a word of a table is another.
    fn ask_with(&mut self, known: Known, table: usize, index: u64, word: u64) {
        let old = self.word(table, index);
        self.set(table, index, word);
        self.put_dma(known.pe, known.address);
        self.expect_freeze(known.pe);
        self.set(table, index, old)
    }

    /// Classes that are not served.
    fn ask_class(&mut self) {
        let pe = self.some_pe();
        let class = self.random.between(2, 15);
        let address = match self.random.below(4) {
            0 => 0,
            1 => self.random.next() >> 4,
            2 => 0xFFFF_0000,
            _ => 0x70,
        };
        self.put_dma(pe, class << 60 | address);
        self.expect_freeze(pe);
    }

    /// Lengths at and past their limits, in every class.
    fn ask_length(&mut self) {
        let (pe, address) = match self.known_address() {
            Some(known) => (known.pe, known.address),
            None => (0, 0),
        };
        let address = match self.random.below(6) {
            0 => 0x1000_0000_0000_0070,
            1 => 0xFFFF_0070,
            2 => self.random.next(),
            3 => address & !0xFFF,
            4 => address | 0xFFF,
            _ => address ^ self.random.below(4_096),
        };
        let room = 4_096 - address % 4_096;
        let length = self.random.pick(&[
            0,
            1,
            room,
            room + 1,
            4_096,
            4_097,
            MAX,
            address.wrapping_neg(),
            1 << 32 | 1,
        ]);
        let requester = if self.random.percent(90) { self.requester_of(pe) } else { self.r };
        let write = self.random.percent(50);
        let data = self.data();
        let line = self.dma_line(requester, write, address, length, data);
        self.put_text(line)
    }

    /// A requester that is not there, or any that is.
    fn some_requester(&mut self) -> u64 {
        let good = self.random.below(self.r);
        match self.random.below(9) {
            0 => self.r,
            1 => self.r + 1,
            2 => 0x10005,
            3 => (1 << 16) + good,
            4 => (1 << 32) + good,
            5 => MAX,
            6 => self.random.any(),
            _ => good,
        }
    }

    fn ask_requester(&mut self) {
        let requester = self.some_requester();
        let address = match self.known_address() {
            Some(known) => known.address,
            None => self.random.any(),
        };
        let write = self.random.percent(50);
        let length = self.good_length(address);
        let data = self.data();
        let line = self.dma_line(requester, write, address, length, data);
        self.put_text(line)
    }

    /// An interrupt number: mostly one below M, often one of the frequent.
    fn some_interrupt(&mut self) -> u64 {
        match self.random.below(20) {
            0 => self.m,
            1 => self.random.below(64),
            2..=11 if !self.frequent.is_empty() => self.random.pick(&self.frequent),
            _ => self.random.below(self.m),
        }
    }

    fn ask_msi(&mut self) {
        let number = self.some_interrupt();
        let pe = if self.random.percent(90) {
            self.word(INTERRUPTS, 4 * number)
        } else {
            self.some_pe()
        };
        // The number is split between address and data; bits may stand in both.
        let in_data = number & 31 & self.random.next();
        let in_address = number & !in_data | number & self.random.next();
        let mut data = in_data;
        let mut address;
        if self.random.percent(50) {
            address = 0xFFFF_0000 | in_address << 4;
        } else {
            address = 1 << 60 | in_address << 4;
            if self.random.percent(40) {
                address |= self.random.next() << 20 & (SECOND | SECOND - 1);
            }
        }
        if self.random.percent(40) {
            address |= self.random.below(4) << 2;
            data |= self.random.next() & 0xFFFF_FFE0;
        }
        let mut write = true;
        let mut length = 4;
        let altered = self.random.percent(15);
        if altered {
            match self.random.below(7) {
                0 => write = false,
                1 => length = self.random.pick(&[1, 2, 3, 5, 8]),
                2 => address |= self.random.between(1, 3),
                3 => data |= self.random.below(32),
                4 => address |= 1 << self.random.between(4, 15),
                5 => address |= 0xFFF0,
                _ => address ^= 1 << self.random.between(4, 63),
            }
        }
        self.prepare(pe);
        let requester = self.requester_of(pe);
        let line = self.dma_line(requester, write, address, length, data);
        self.put_text(line);
        if altered || self.random.percent(50) {
            self.expect_freeze(pe);
        }
    }

    fn ask_window(&mut self) {
        if self.random.percent(20) {
            let pe = self.some_pe();
            if self.stopped >> pe & 1 == 1 {
                let line = self.clear_line(pe, "mmio");
                self.put_text(line);
            }
        }
        let line = self.window_line();
        self.put_text(line)
    }

    fn window_line(&mut self) -> String {
        // M32 comes first; it is asked for more often, for it has the segment table.
        let at = match self.random.below(20) {
            0..=5 => 0,
            _ => 3 + 4 * self.random.below(16),
        };
        let base = self.word(WINDOWS, at);
        let size = self.word(WINDOWS, at + 1);
        let segment = (size / 256).max(1);
        let offset = match self.random.below(12) {
            0 => 0,
            1 => size.wrapping_sub(1),
            2 => size,
            3 => MAX,
            4 => self.random.below(256).wrapping_mul(segment),
            5 => self.random.below(256).wrapping_mul(segment).wrapping_sub(1),
            6 => self.random.below(size),
            7 => self.random.any(),
            8 => self.n.wrapping_mul(segment),
            _ => self
                .random
                .below(self.n)
                .wrapping_mul(segment)
                .wrapping_add(self.random.below(segment)),
        };
        let width = match self.random.below(16) {
            0 => self.random.pick(&[0, 3, 5, 6, 7, 9, 16, 1 << 32 | 4, 1 << 63, MAX]),
            _ => self.random.pick(&[1, 2, 4, 8]),
        };
        let mut address = base.wrapping_add(offset);
        if self.random.percent(92) && width <= 8 {
            address -= address % width.max(1);
        }
        let word = if self.random.percent(50) { "load" } else { "store" };
        self.numbers(word, &[address, width])
    }

    fn ask_error(&mut self) {
        let requester =
            if self.random.percent(70) { self.random.below(self.r) } else { self.some_requester() };
        let line = self.numbers("error", &[requester]);
        self.put_text(line);
        let pe = self.word(REQUESTERS, requester);
        self.expect_message(pe);
    }

    fn firmware_interrupt(&mut self) -> u64 {
        match self.random.below(30) {
            0 => self.random.pick(&[MAX, 1 << 16, 1 << 32, 1 << 62, 0x10005]),
            _ => self.some_interrupt(),
        }
    }

    fn end_line(&mut self) -> String {
        let number = self.firmware_interrupt();
        self.numbers("end", &[number])
    }

    fn priority_line(&mut self) -> String {
        let number = self.firmware_interrupt();
        let priority = match self.random.below(12) {
            0..=4 => 255,
            5 => 254,
            6 => 0,
            7 => self.random.pick(&[0x100, 0x101, 0x1FF, 0x10005, 1 << 32, MAX]),
            _ => self.random.below(256),
        };
        self.numbers("prio", &[number, priority])
    }

    fn any_clear(&mut self) -> String {
        let pe = match self.random.below(12) {
            0 => self.n,
            1 => self.random.pick(&[0x10002, 256, 1 << 16, 1 << 32, 1 << 63, MAX]),
            2 => (1 << 16) + self.some_pe(),
            _ => self.some_pe(),
        };
        let part = self.random.pick(&["mmio", "dma", "record"]);
        self.clear_line(pe, part)
    }

    /// Any request, good or not.
    fn any_request(&mut self) -> String {
        match self.random.below(7) {
            0 => {
                let requester = self.some_requester();
                let write = self.random.percent(50);
                let address = self.random.any();
                let length = self.good_length(address);
                let data = self.data();
                self.dma_line(requester, write, address, length, data)
            }
            1 => self.window_line(),
            2 => {
                let requester = self.some_requester();
                self.numbers("error", &[requester])
            }
            3 => self.any_clear(),
            4 => self.end_line(),
            5 => self.priority_line(),
            _ => {
                let requester = self.some_requester();
                self.dma_line(requester, true, 0x1000_0000_0000_0070, 4, 3)
            }
        }
    }

    // ---- Release ----

    /// Notes that a refusal has probably stopped a PE. Its peers go on being served, and often one
    /// of them is asked for.
    fn expect_freeze(&mut self, pe: u64) {
        if pe < self.n {
            self.stopped |= 1 << pe;
            if self.random.percent(40) {
                self.ask_peer(pe);
            }
        }
    }

    /// A DMA of a peer that runs, to an address that was good once.
    fn ask_peer(&mut self, pe: u64) {
        let running = self.word(PEERS, 4 * pe) & !self.stopped;
        let known: Vec<Known> =
            self.known.iter().copied().filter(|known| running >> known.pe & 1 == 1).collect();
        if !known.is_empty() {
            let peer = self.random.pick(&known);
            self.put_dma(peer.pe, peer.address);
        }
    }

    /// Notes that an error message has stopped a PE and its peers.
    fn expect_message(&mut self, pe: u64) {
        if pe < self.n {
            self.stopped |= 1 << pe | self.word(PEERS, 4 * pe);
        }
    }

    /// Mostly releases a PE before a request, if it is probably stopped.
    fn prepare(&mut self, pe: u64) {
        if pe < self.n && self.stopped >> pe & 1 == 1 && self.random.percent(85) {
            self.release(pe);
        }
    }

    fn release(&mut self, pe: u64) {
        self.stopped &= !(1 << pe);
        if self.random.percent(5) {
            self.build_error_record(pe);
        }
        if self.random.percent(40) {
            let stop = self.random.pick(&[0, 0, 0, 0, 0, 1, 2, 4, MAX - 3]);
            return self.set(STATE, STATE_WORDS * pe, stop);
        }
        if self.random.percent(90) {
            let line = self.clear_line(pe, "dma");
            self.put_text(line);
        }
        if self.random.percent(50) {
            let line = self.clear_line(pe, "mmio");
            self.put_text(line);
        }
        if self.random.percent(30) {
            let line = self.clear_line(pe, "record");
            self.put_text(line);
        }
    }

    fn release_all(&mut self) {
        for pe in 0..self.n {
            if self.random.percent(70) {
                self.release(pe);
            }
        }
    }

    // ---- Changes of the tables ----

    /// Changes a word or a record of a table.
    fn change(&mut self) {
        match self.random.weighted(&[8, 20, 12, 6, 20, 14, 8, 8]) {
            0 => {
                let requester = self.random.below(self.r);
                let pe = self.some_requester_pe();
                self.set(REQUESTERS, requester, pe)
            }
            1 => {
                let pe = self.some_pe();
                let record = self.random.below(2);
                match self.random.below(10) {
                    0..=2 => {
                        self.break_record(pe, record);
                        self.ask_record(pe, record)
                    }
                    3 => {
                        let word = self.random.any();
                        let at = 8 * pe + self.random.below(8);
                        self.set(TRANSLATION, at, word)
                    }
                    4 => {
                        let code = self.random.between(1, 5);
                        self.set(TRANSLATION, 8 * pe + 4 * record + 1, code)
                    }
                    _ => self.build_record(pe, record),
                }
            }
            2 => self.change_memory(),
            3 => {
                let pe = self.some_pe();
                self.build_peers(pe)
            }
            4 if self.m > 0 => {
                let number = self.some_interrupt().min(self.m - 1);
                if self.random.percent(50) {
                    return self.build_interrupt(number);
                }
                let place = self.random.below(4);
                let value = if self.random.percent(20) {
                    self.interrupt_word_off_limits(place)
                } else {
                    self.interrupt_word(place)
                };
                self.set(INTERRUPTS, 4 * number + place, value)
            }
            5 => {
                let window = self.random.below(16);
                match self.random.below(6) {
                    0 | 1 => self.build_m32(),
                    2 => {
                        let at = self.random.below(67);
                        let word = self.random.any();
                        return self.set(WINDOWS, at, word);
                    }
                    _ => self.build_m64(window),
                }
                let line = self.window_line();
                self.put_text(line)
            }
            6 => {
                let segment = self.random.below(256);
                let pe = self.some_segment_pe();
                self.set(SEGMENTS, segment, pe)
            }
            _ if self.random.percent(50) => {
                let pe = self.some_pe();
                self.build_error_record(pe)
            }
            _ => {
                let at = self.random.below(STATE_WORDS * self.n);
                let word = self.random.pick(&[0, 1, 2, 3, 4, MAX]);
                self.set(STATE, at, word)
            }
        }
    }

    /// Changes a memory word that a walk may read.
    fn change_memory(&mut self) {
        if self.words == 0 {
            return;
        }
        let used: Vec<u64> = (0..self.words).filter(|&k| self.word(MEMORY, k) != 0).collect();
        let at =
            if used.is_empty() { self.random.below(self.words) } else { self.random.pick(&used) };
        let old = self.word(MEMORY, at);
        let word = match self.random.below(10) {
            0 => 0,
            1 => old & !3,
            2 => old ^ self.random.between(1, 3),
            // A lower table that is misaligned for larger tables.
            3 => 0x1000 | self.random.between(1, 3),
            // A lower table outside memory, whole or in part.
            4 => self.words * 8 & !0xFFF | 3,
            5 => old ^ 1 << self.random.between(12, 63),
            6 => self.last_word(),
            7 => self.random.next(),
            8 => self.upper_word(512) | 1 << self.random.between(56, 63),
            _ => self.upper_word(512),
        };
        self.set(MEMORY, at, word)
    }

    // ---- Damaged lines ----

    /// A size line with one number off its limits.
    fn size_off_limits(&mut self) -> String {
        let mut size = [
            self.random.between(1, 16),
            self.random.below(65),
            self.random.between(1, 64),
            self.random.below(4_097),
        ];
        let (place, off) = self.random.pick(&[
            (0, 0),
            (0, 0x11),
            (0, 0x100),
            (1, 0x41),
            (1, 0x800),
            (2, 0),
            (2, 0x41),
            (2, 0x10000),
            (3, 0x1001),
            (3, 0x10_0000),
        ]);
        size[place] = if self.random.percent(20) {
            self.random.pick(&[MAX, 1 << 32 | 1, 1 << 63])
        } else {
            off
        };
        self.numbers("size", &size)
    }

    /// A set line with its index or its value off the limits.
    fn set_off_limits(&mut self) -> String {
        let table = self.random.below(8) as usize;
        let length = self.tables[table].len() as u64;
        if (table == REQUESTERS || table == SEGMENTS) && self.random.percent(50) {
            let index = self.random.below(length);
            let value = self.random.pick(&[0x10000, 0x10002, 1 << 32, MAX]);
            return self.set_line(table, index, value);
        }
        let index = self.random.pick(&[
            length,
            length,
            length + 1,
            1 << 16,
            1 << 32,
            1 << 61,
            1 << 63,
            MAX,
        ]);
        let value = self.random.below(2);
        self.set_line(table, index, value)
    }

    /// A line of a good form, to be damaged.
    fn some_line(&mut self) -> String {
        match self.random.below(8) {
            0 => {
                let n = self.random.between(1, 16);
                let m = self.random.below(65);
                let r = self.random.between(1, 64);
                let words = self.random.below(4_097);
                self.numbers("size", &[n, m, r, words])
            }
            1 | 2 => {
                let table = self.random.below(8) as usize;
                let index = self.random.below(self.tables[table].len() as u64);
                let value = self.random.below(16);
                self.set_line(table, index, value)
            }
            _ => self.any_request(),
        }
    }

    fn damaged(&mut self) {
        match self.random.below(10) {
            0 => {
                let line = self.set_off_limits();
                return self.put_text(line);
            }
            1 => {
                let line = self.size_off_limits();
                return self.put_text(line);
            }
            2 => {
                let requester = self.random.below(self.r);
                let write = self.random.percent(50);
                let data = self.random.pick(&[1 << 32, 1 << 33 | 3, MAX]);
                let line = self.dma_line(requester, write, 0x70, 4, data);
                return self.put_text(line);
            }
            _ => {}
        }
        let line = self.some_line();
        let line = self.damage(line.into_bytes());
        self.put(line)
    }

    /// Damages a line; no result is of a good form.
    fn damage(&mut self, line: Vec<u8>) -> Vec<u8> {
        let mut fields: Vec<Vec<u8>> =
            line.split(|&byte| byte == b'\t').map(|f| f.to_vec()).collect();
        let last = fields.len() as u64 - 1;
        // A field after the word.
        let place = self.random.between(1, last) as usize;
        let mut line = line;
        match self.random.below(24) {
            // 17 digits.
            0 => {
                let digits = String::from_utf8_lossy(&fields[place]).to_string();
                let fill = self.random.pick(&['0', '0', '1', 'f']);
                let mut long: Vec<u8> =
                    vec![fill as u8; 17usize.saturating_sub(digits.len()).max(1)];
                long.extend_from_slice(digits.as_bytes());
                fields[place] = long;
            }
            // Upper case, in a number or in the word.
            1 => {
                let letter = self.random.pick(b"ABCDEF");
                fields[place].push(letter);
            }
            2 => {
                if self.random.percent(50) {
                    fields[0] = fields[0].to_ascii_uppercase();
                } else {
                    fields[0][0] = fields[0][0].to_ascii_uppercase();
                }
            }
            3 => return Vec::new(),
            // Tabs too many.
            4 => {
                line.push(b'\t');
                return line;
            }
            5 => fields.insert(place, Vec::new()),
            6 => {
                line.insert(0, b'\t');
                return line;
            }
            7 => return vec![b'\t'; self.random.between(1, 9) as usize],
            // A space for a tab, before, after or within.
            8 => {
                let at = line.iter().position(|&byte| byte == b'\t').unwrap_or(0);
                match self.random.below(5) {
                    0 => line[at] = b' ',
                    1 => line.insert(0, b' '),
                    2 => line.push(b' '),
                    3 => line.insert(at, b' '),
                    _ => line.insert(at + 1, b' '),
                }
                return line;
            }
            9 => {
                line.push(b'\r');
                return line;
            }
            // A NUL, a control character or a byte above 127 anywhere.
            10 => {
                let at = self.random.between(0, line.len() as u64) as usize;
                line.insert(at, 0);
                return line;
            }
            11 => {
                let at = self.random.between(0, line.len() as u64) as usize;
                line.insert(at, self.random.between(128, 255) as u8);
                return line;
            }
            12 => {
                let at = self.random.below(line.len() as u64) as usize;
                line[at] |= 128;
                return line;
            }
            13 => {
                let at = self.random.between(0, line.len() as u64) as usize;
                line.insert(at, self.random.pick(b"\x01\x0b\x0c\x1b\x7f\r"));
                return line;
            }
            14 => {
                fields[0] = self
                    .random
                    .pick(&[
                        &b"sizes"[..],
                        b"siz",
                        b"sets",
                        b"se",
                        b"dm",
                        b"dmas",
                        b"loads",
                        b"loa",
                        b"stores",
                        b"read",
                        b"errors",
                        b"clean",
                        b"ends",
                        b"en",
                        b"priority",
                        b"pri",
                        b"n",
                        b"#",
                        b"",
                    ])
                    .to_vec();
            }
            // Missing and extra fields.
            15 => {
                fields.pop();
            }
            16 => fields.truncate(1),
            17 => {
                let extra =
                    self.random.pick(&[&b"0"[..], b"r", b"dma", b"ffffffffffffffff"]).to_vec();
                fields.push(extra);
            }
            // The word and the field swapped, or a field left empty.
            18 => fields.swap(0, place),
            19 => fields[place].clear(),
            // Just outside the digits, signs and prefixes.
            20 => {
                let byte = self.random.pick(b"/:`g@GxO._");
                let at = self.random.between(0, fields[place].len() as u64) as usize;
                fields[place].insert(at, byte);
            }
            21 => {
                let mut text = self.random.pick(&[&b"0x"[..], b"-", b"+", b"0X", b"$"]).to_vec();
                text.extend_from_slice(&fields[place]);
                fields[place] = text;
            }
            // Wrong words within a line.
            22 => return self.wrong_word(),
            // Rarely a very long line.
            _ => {
                if self.random.percent(4) {
                    return self.long_line(line);
                }
                line.extend_from_slice(b"\t0\t0\t0\t0\t0\t0");
                return line;
            }
        }
        fields.join(&b'\t')
    }

    fn wrong_word(&mut self) -> Vec<u8> {
        match self.random.below(3) {
            0 => {
                let name = self.random.pick(&[
                    "translation entries",
                    "entries",
                    "requester",
                    "Memory",
                    "peer",
                    "interrupt",
                    "windows ",
                    "segment",
                    "states",
                    "",
                    "0",
                ]);
                format!("set\t{}\t0\t0", name).into_bytes()
            }
            1 => {
                let direction = self.random.pick(&["R", "W", "rw", "", "x", "0", "read", "r "]);
                format!("dma\t0\t{}\t70\t4\t0", direction).into_bytes()
            }
            _ => {
                let part =
                    self.random.pick(&["MMIO", "Dma", "all", "records", "", "0", "mmi", "dma "]);
                format!("clear\t0\t{}", part).into_bytes()
            }
        }
    }

    /// A line of 100,000 bytes or a little more.
    fn long_line(&mut self, mut line: Vec<u8>) -> Vec<u8> {
        let fill = self.random.pick(b"0f\t A\x00\xff\r");
        if self.random.percent(30) {
            line.clear();
        }
        let length = 100_000 + self.random.below(3) as usize;
        line.resize(line.len().max(length), fill);
        line
    }
}

fn main() {
    let arguments: Vec<String> = env::args().skip(1).collect();
    let numbers: Vec<u64> = arguments.iter().filter_map(|text| text.parse().ok()).collect();
    if arguments.len() != 2 || numbers.len() != 2 {
        eprintln!("usage: generate SEED LINES (two decimal numbers)");
        process::exit(2);
    }
    Generator::new(numbers[0], numbers[1]).run();
}

fn give_up(error: io::Error) -> ! {
    eprintln!("generate: {}", error);
    process::exit(1);
}
