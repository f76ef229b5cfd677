// The bridge: requester lookup, DMA through translation tables or bypass, MSI,
// loads and stores, error messages, stop bits, the fence and firmware requests.
//
// A PE (partitionable endpoint) is the unit that is stopped and released.
// The tables are plain vectors; only `state` and `interrupts` are written.

/// The most interrupts. The 32-bit window has a number for each.
pub const MOST_INTERRUPTS: u64 = 4_096;

/// State words of each PE. After those of all PEs comes one word more, the fence word.
pub const STATE_WORDS: usize = 4;

/// Stop bits in the first state word of a PE. Its other bits stay as they are.
pub const MMIO_STOP: u64 = 1;
pub const DMA_STOP: u64 = 2;

/// The fence, in the fence word. Its other bits stay as they are.
pub const FENCE: u64 = 1;

/// P and Q: the last word of an interrupt is 2P+Q.
pub const PENDING: u64 = 2;
pub const QUEUED: u64 = 1;

/// The priority that holds every MSI.
pub const MASKED: u64 = 255;

/// What a device, the processor or the firmware asks for.
/// Numbers are wide: one that no table has is refused, never cut.
/// `Fatal` is a fatal error message, `Error` any other.
#[derive(Clone, Copy, Debug, PartialEq, Eq)]
pub enum Request {
    Dma { requester: u64, write: bool, address: u64, length: u64, data: u32 },
    Load { address: u64, width: u64 },
    Store { address: u64, width: u64 },
    Error { requester: u64 },
    Clear { pe: u64, part: Part },
    End { interrupt: u64 },
    Priority { interrupt: u64, priority: u64 },
    Fatal { requester: u64 },
    FenceClear,
}

/// What firmware may clear of a PE: one stop bit or the error record.
#[derive(Clone, Copy, Debug, PartialEq, Eq)]
pub enum Part {
    Mmio,
    Dma,
    Record,
}

#[derive(Clone, Copy, Debug, PartialEq, Eq)]
pub enum Name {
    Pass,
    Msi,
    Held,
    Ones,
    Drop,
    Refuse,
    Done,
}

/// The whole answer to a request.
#[derive(Clone, Copy, Debug, PartialEq, Eq)]
pub struct Answer {
    pub name: Name,
    /// 0 unless the request is refused; `Ones` and `Drop` carry 11 or 18.
    pub reason: u64,
    /// The address of a pass, the number of an interrupt, all ones, or 0.
    pub value: u64,
    /// Table words read.
    pub words: u64,
    /// The system address of the table word that the walk stopped at under 8 and 15, or 0.
    pub word: u64,
    /// Given with a pass only.
    pub pe: Option<u64>,
    /// Given with a presented MSI only.
    pub server: Option<u64>,
    /// Given with a presented MSI only.
    pub priority: Option<u64>,
}

fn answer(name: Name, reason: u64, value: u64, words: u64) -> Answer {
    Answer { name, reason, value, words, word: 0, pe: None, server: None, priority: None }
}

pub fn refuse(reason: u64, words: u64) -> Answer {
    answer(Name::Refuse, reason, 0, words)
}

/// A load is answered with all ones, a store is dropped.
fn not_served(load: bool, reason: u64, all_ones: u64) -> Answer {
    if load {
        answer(Name::Ones, reason, all_ones, 0)
    } else {
        answer(Name::Drop, reason, 0, 0)
    }
}

pub fn done() -> Answer {
    answer(Name::Done, 0, 0, 0)
}

fn held(number: u64) -> Answer {
    answer(Name::Held, 0, number, 0)
}

fn pass(address: u64, pe: u64, words: u64) -> Answer {
    Answer { pe: Some(pe), ..answer(Name::Pass, 0, address, words) }
}

/// A translation record that has page tables.
#[derive(Clone, Copy, Debug, PartialEq, Eq)]
pub struct Pages {
    /// The byte address of the first table.
    pub base: u64,
    pub levels: u64,
    /// A table has 2^index_bits words, and a page 2^page_bits bytes.
    pub index_bits: u64,
    pub page_bits: u64,
}

impl Pages {
    pub fn window_bits(&self) -> u64 {
        self.page_bits + self.levels * self.index_bits
    }
}

/// A translation record that is good. A bypass is in units of 16 MiB, its end not included.
#[derive(Clone, Copy, Debug, PartialEq, Eq)]
pub enum Record {
    Pages(Pages),
    Bypass { start: u64, end: u64 },
}

/// A page of a PE: `half` is 0 for its first record and 1 for its second, and the number is by the page
/// size of that record.
#[derive(Clone, Copy, Debug, PartialEq, Eq)]
pub struct Page {
    pub pe: u64,
    pub half: u64,
    pub number: u64,
}

/// A DMA that asks a page table, with every check before the walk passed.
#[derive(Clone, Copy, Debug, PartialEq, Eq)]
pub struct Wanted {
    pub page: Page,
    pub pages: Pages,
    pub write: bool,
    pub address: u64,
    pub length: u64,
}

/// A DMA that is answered, or one that asks a page table first.
pub enum Begun {
    Answered(Answer),
    Asks(Wanted),
}

/// A last word that allows the direction, and the count of words read.
pub type Found = (u64, u64);

/// The reason, the count of words read, and the address of the word that the walk stopped at.
pub type Stopped = (u64, u64, u64);

/// The record that an address of the DMA class picks, and the offset.
pub fn half_and_offset(address: u64) -> (u64, u64) {
    (address >> 59 & 1, address & ((1 << 59) - 1))
}

/// Whether a last word allows a direction.
pub fn allows(word: u64, write: bool) -> bool {
    word & if write { 2 } else { 1 } != 0
}

/// The tables and their sizes. The default has no tables and refuses all with 1.
#[derive(Clone, Debug, Default, PartialEq, Eq)]
pub struct Bridge {
    /// Number of PEs, 1..256.
    pub n: u64,
    /// Number of interrupts, 0..MOST_INTERRUPTS.
    pub m: u64,
    /// Number of requesters, 1..65536.
    pub r: u64,
    /// Bytes of installed memory, any number. No DMA reaches a byte at or above it.
    pub installed: u64,
    /// PE of each requester; n or more means none.
    pub requesters: Vec<u16>,
    /// Two records to each PE: base, levels, table code, page code.
    pub translation: Vec<u64>,
    /// Word k is at system address 8k.
    pub memory: Vec<u64>,
    /// Four words to each PE; PE k is bit k mod 64 of word k div 64.
    pub peers: Vec<u64>,
    /// PE, server, priority, 2P+Q.
    pub interrupts: Vec<u64>,
    /// M32: base, size, PCI base. Then 16 of M64: base, size, mode, PE.
    pub windows: Vec<u64>,
    /// PE of each M32 segment.
    pub segments: Vec<u16>,
    /// To each PE: stop bits; reason, value and word of the error record. Then the fence word.
    pub state: Vec<u64>,
}

impl Bridge {
    /// A bridge of the given sizes with every word 0.
    pub fn new(n: u64, m: u64, r: u64, installed: u64, memory_words: u64) -> Bridge {
        Bridge {
            n,
            m,
            r,
            installed,
            requesters: vec![0; r as usize],
            translation: vec![0; 8 * n as usize],
            memory: vec![0; memory_words as usize],
            peers: vec![0; 4 * n as usize],
            interrupts: vec![0; 4 * m as usize],
            windows: vec![0; 67],
            segments: vec![0; 256],
            state: vec![0; fence_place(n) + 1],
        }
    }

    /// Answers one request and writes what it changes to `state` and `interrupts`.
    pub fn handle(&mut self, request: Request) -> Answer {
        if !self.sizes_agree() {
            return refuse(1, 0);
        }
        match request {
            Request::Dma { requester, write, address, length, data } => {
                match self.dma(requester, write, address, length, data) {
                    Begun::Answered(answer) => answer,
                    Begun::Asks(wanted) => {
                        let found = self.find(&wanted);
                        self.finish(&wanted, found)
                    }
                }
            }
            Request::Load { address, width } => self.load_or_store(address, width, true),
            Request::Store { address, width } => self.load_or_store(address, width, false),
            Request::Error { requester } => self.error_message(requester),
            Request::Clear { pe, part } => self.clear(pe, part),
            Request::End { interrupt } => self.end_of_interrupt(interrupt),
            Request::Priority { interrupt, priority } => self.set_priority(interrupt, priority),
            Request::Fatal { requester } => self.fatal_message(requester),
            Request::FenceClear => self.clear_fence(),
        }
    }

    // ---- Tables ----

    pub fn sizes_agree(&self) -> bool {
        let length = |table: &Vec<u64>| table.len() as u64;
        (1..=256).contains(&self.n)
            && self.m <= MOST_INTERRUPTS
            && (1..=65_536).contains(&self.r)
            && self.requesters.len() as u64 == self.r
            && length(&self.translation) == 8 * self.n
            && length(&self.memory) <= 1_048_576
            && length(&self.peers) == 4 * self.n
            && length(&self.interrupts) == 4 * self.m
            && length(&self.windows) == 67
            && self.segments.len() == 256
            && self.state.len() == fence_place(self.n) + 1
    }

    /// The PE of a requester, if it is known.
    fn pe_of(&self, requester: u64) -> Option<usize> {
        if requester >= self.r {
            return None;
        }
        let pe = self.requesters[requester as usize];
        if u64::from(pe) < self.n {
            Some(pe as usize)
        } else {
            None
        }
    }

    // ---- Fence ----

    fn is_fenced(&self) -> bool {
        self.state[fence_place(self.n)] & FENCE != 0
    }

    fn fence_word(&mut self) -> &mut u64 {
        &mut self.state[fence_place(self.n)]
    }

    // ---- Freeze ----

    /// An error message stops its PE and the PEs of that one's own peer vector.
    fn freeze_with_peers(&mut self, failing: usize, reason: u64, value: u64) {
        self.stop(failing, reason, value, 0);
        for pe in 0..self.n as usize {
            let is_peer = self.peers[4 * failing + pe / 64] >> (pe % 64) & 1 == 1;
            if is_peer && pe != failing {
                self.stop(pe, 13, failing as u64, 0);
            }
        }
    }

    /// Sets both stop bits of one PE; its error record is written only if empty.
    fn stop(&mut self, pe: usize, reason: u64, value: u64, word: u64) {
        let at = STATE_WORDS * pe;
        self.state[at] |= MMIO_STOP | DMA_STOP;
        if self.state[at + 1] == 0 {
            self.state[at + 1] = reason;
            self.state[at + 2] = value;
            self.state[at + 3] = word;
        }
    }

    // ---- DMA ----
    //
    // Inlined, and MSIs too, so that a DMA costs what it would in one function.

    /// Answers a DMA on tables of good sizes, unless it asks a page table; `finish` answers it then.
    #[inline(always)]
    pub fn dma(
        &mut self,
        requester: u64,
        write: bool,
        address: u64,
        length: u64,
        data: u32,
    ) -> Begun {
        let refused = |reason| Begun::Answered(refuse(reason, 0));
        if length < 1 || length > 4_096 || address % 4_096 + length > 4_096 {
            return refused(2);
        }
        if self.is_fenced() {
            return refused(18);
        }
        let pe = match self.pe_of(requester) {
            Some(pe) => pe,
            None => return refused(3),
        };
        if self.state[STATE_WORDS * pe] & DMA_STOP != 0 {
            return refused(4);
        }
        match address >> 60 {
            0 if (0xFFFF_0000..=0xFFFF_FFFF).contains(&address) => {
                let number = u64::from(data & 31) | (address >> 4 & 0xFFF);
                Begun::Answered(self.msi(pe, write, address, length, number))
            }
            0 => self.translate(pe, write, address, length),
            1 => {
                let number = u64::from(data & 31) | (address >> 4 & 0xFFFF);
                Begun::Answered(self.msi(pe, write, address, length, number))
            }
            _ => {
                self.stop(pe, 5, address, 0);
                refused(5)
            }
        }
    }

    /// By the record that the address picks.
    #[inline(always)]
    fn translate(&mut self, pe: usize, write: bool, address: u64, length: u64) -> Begun {
        let (half, offset) = half_and_offset(address);
        let located = match self.record(pe as u64, half) {
            None => Err((6, 0, 0)),
            Some(Record::Bypass { start, end }) => {
                if offset < start << 24 || offset >= end << 24 {
                    Err((7, 0, 0))
                } else {
                    Ok((offset, 0))
                }
            }
            Some(Record::Pages(pages)) => {
                if offset < 1 << pages.window_bits() {
                    let page = Page { pe: pe as u64, half, number: offset >> pages.page_bits };
                    return Begun::Asks(Wanted { page, pages, write, address, length });
                }
                Err((7, 0, 0))
            }
        };
        Begun::Answered(self.reach(pe, address, length, located))
    }

    /// Answers a DMA by what was found for it.
    #[inline(always)]
    pub fn finish(&mut self, wanted: &Wanted, found: Result<Found, Stopped>) -> Answer {
        let in_page = (1 << wanted.pages.page_bits) - 1;
        let located =
            found.map(|(word, words)| (word & !in_page | wanted.address & in_page, words));
        self.reach(wanted.page.pe as usize, wanted.address, wanted.length, located)
    }

    /// The answer of a DMA that is at this system address after so many words, or that was stopped.
    #[inline(always)]
    fn reach(
        &mut self,
        pe: usize,
        address: u64,
        length: u64,
        located: Result<(u64, u64), Stopped>,
    ) -> Answer {
        match located {
            // The last byte is in the page of the first, and so is below 2^64.
            Ok((system_address, words)) if system_address + (length - 1) >= self.installed => {
                self.stop(pe, 17, address, 0);
                refuse(17, words)
            }
            Ok((system_address, words)) => pass(system_address, pe as u64, words),
            Err((reason, words, word)) => {
                self.stop(pe, reason, address, word);
                Answer { word, ..refuse(reason, words) }
            }
        }
    }

    /// A translation record of a PE below n, unless it is disabled or bad.
    #[inline(always)]
    pub fn record(&self, pe: u64, half: u64) -> Option<Record> {
        let first = (8 * pe + 4 * half) as usize;
        let entry = &self.translation[first..first + 4];
        let (table_code, page_code) = (entry[2], entry[3]);
        if table_code < 1 || table_code > 31 {
            return None;
        }

        if page_code == 0 {
            let (start, end) = (entry[0], entry[1]);
            if start >= end || end > 1 << 35 {
                return None;
            }
            return Some(Record::Bypass { start, end });
        }

        let (base, levels) = (entry[0], entry[1]);
        let page_bits = match page_code {
            1 | 5 | 13 | 17 => page_code + 11,
            _ => return None,
        };
        if levels < 1 || levels > 5 {
            return None;
        }
        let index_bits = table_code + 8;
        if base % (8u64 << index_bits) != 0 {
            return None;
        }
        let pages = Pages { base, levels, index_bits, page_bits };
        if pages.window_bits() > 59 {
            return None;
        }
        Some(Record::Pages(pages))
    }

    /// The walk, and whether its last word allows the direction.
    #[inline(always)]
    pub fn find(&self, wanted: &Wanted) -> Result<Found, Stopped> {
        let levels = wanted.pages.levels;
        let (number, word) = self.walk(&wanted.pages, wanted.page.number, |_| {})?;
        if !allows(word, wanted.write) {
            return Err((8, levels, 8 * number));
        }
        Ok((word, levels))
    }

    /// The walk to the last word of a page: its number, and the word. `read` is told the number of each
    /// word that is read, the last one too. Of a page number that is too large for the window the low
    /// bits count.
    #[inline(always)]
    pub fn walk(
        &self,
        pages: &Pages,
        page: u64,
        mut read: impl FnMut(u64),
    ) -> Result<(u64, u64), Stopped> {
        let index_bits = pages.index_bits;
        let index = |level: u64| page >> (level * index_bits) & ((1 << index_bits) - 1);
        let table_bytes = 8u64 << index_bits;
        let mut table = pages.base;
        let mut words = 0;
        for level in (1..pages.levels).rev() {
            let number = table / 8 + index(level);
            let word = self.memory_word(number).ok_or((15, words, 8 * number))?;
            read(number);
            words += 1;
            if word & 3 == 0 {
                return Err((8, words, 8 * number));
            }
            table = word & !0xFFF;
            if table % table_bytes != 0 {
                return Err((8, words, 8 * number));
            }
        }
        let number = table / 8 + index(0);
        let word = self.memory_word(number).ok_or((15, words, 8 * number))?;
        read(number);
        Ok((number, word))
    }

    /// A word of memory by its number, if it is there.
    fn memory_word(&self, number: u64) -> Option<u64> {
        if number < self.memory.len() as u64 {
            Some(self.memory[number as usize])
        } else {
            None
        }
    }

    // ---- MSI ----

    #[inline(always)]
    fn msi(&mut self, pe: usize, write: bool, address: u64, length: u64, number: u64) -> Answer {
        let good_form = write && length == 4 && address % 4 == 0;
        if !good_form
            || !self.words_good(number)
            || self.interrupts[4 * number as usize] != pe as u64
        {
            self.stop(pe, 9, address, 0);
            return refuse(9, 0);
        }
        self.arrive(number)
    }

    /// Whether an interrupt is there and its server, priority and state are in range.
    fn words_good(&self, number: u64) -> bool {
        if number >= self.m {
            return false;
        }
        let at = 4 * number as usize;
        self.interrupts[at + 1] < 1 << 24
            && self.interrupts[at + 2] <= 255
            && self.interrupts[at + 3] <= 3
    }

    /// An MSI arrives at a good interrupt.
    #[inline(always)]
    fn arrive(&mut self, number: u64) -> Answer {
        let at = 4 * number as usize;
        if self.interrupts[at + 2] == MASKED || self.interrupts[at + 3] & PENDING != 0 {
            self.interrupts[at + 3] |= QUEUED;
            return held(number);
        }
        self.interrupts[at + 3] |= PENDING;
        self.present(number)
    }

    #[inline(always)]
    fn present(&self, number: u64) -> Answer {
        let at = 4 * number as usize;
        Answer {
            server: Some(self.interrupts[at + 1]),
            priority: Some(self.interrupts[at + 2]),
            ..answer(Name::Msi, 0, number, 0)
        }
    }

    // ---- Loads and stores ----

    fn load_or_store(&self, address: u64, width: u64, load: bool) -> Answer {
        let all_ones = match width {
            1 => 0xFF,
            2 => 0xFFFF,
            4 => 0xFFFF_FFFF,
            8 => u64::MAX,
            _ => return refuse(2, 0),
        };
        if address % width != 0 {
            return refuse(2, 0);
        }
        if self.is_fenced() {
            return not_served(load, 18, all_ones);
        }
        let (pci_address, pe) = match self.window_of(address) {
            Some((pci_address, pe)) if pe < self.n => (pci_address, pe),
            _ => return refuse(10, 0),
        };
        if self.state[STATE_WORDS * pe as usize] & MMIO_STOP != 0 {
            return not_served(load, 11, all_ones);
        }
        pass(pci_address, pe, 0)
    }

    /// PCI address and PE by the first open window that covers the address.
    fn window_of(&self, address: u64) -> Option<(u64, u64)> {
        let (base, size, pci_base) = (self.windows[0], self.windows[1], self.windows[2]);
        let open = size.is_power_of_two()
            && (1 << 20 <= size && size <= 1 << 32)
            && base % size == 0
            && pci_base % size == 0
            && u128::from(pci_base) + u128::from(size) <= 1 << 32;
        if open && covers(base, size, address) {
            let offset = address - base;
            let segment = offset / (size / 256);
            return Some((pci_base + offset, u64::from(self.segments[segment as usize])));
        }

        for window in self.windows[3..].chunks(4) {
            let (base, size, mode, pe) = (window[0], window[1], window[2], window[3]);
            let open = size.is_power_of_two()
                && (1 << 28 <= size && size <= 1 << 50)
                && base % size == 0
                && (mode == 1 || mode == 2);
            if open && covers(base, size, address) {
                let segment = (address - base) / (size / 256);
                return Some((address, if mode == 1 { pe } else { segment }));
            }
        }
        None
    }

    // ---- Error messages ----

    fn error_message(&mut self, requester: u64) -> Answer {
        if self.is_fenced() {
            return refuse(18, 0);
        }
        match self.pe_of(requester) {
            Some(pe) => {
                self.freeze_with_peers(pe, 12, requester);
                done()
            }
            None => refuse(3, 0),
        }
    }

    /// A fatal message sets the fence, stopped or fenced or not. It freezes nobody.
    fn fatal_message(&mut self, requester: u64) -> Answer {
        if self.pe_of(requester).is_none() {
            return refuse(3, 0);
        }
        *self.fence_word() |= FENCE;
        done()
    }

    // ---- Firmware ----

    fn clear(&mut self, pe: u64, part: Part) -> Answer {
        if pe >= self.n {
            return refuse(14, 0);
        }
        let at = STATE_WORDS * pe as usize;
        match part {
            Part::Mmio => self.state[at] &= !MMIO_STOP,
            Part::Dma => self.state[at] &= !DMA_STOP,
            Part::Record => {
                self.state[at + 1] = 0;
                self.state[at + 2] = 0;
                self.state[at + 3] = 0;
            }
        }
        done()
    }

    fn clear_fence(&mut self) -> Answer {
        *self.fence_word() &= !FENCE;
        done()
    }

    fn good_interrupt(&self, number: u64) -> bool {
        self.words_good(number) && self.interrupts[4 * number as usize] < self.n
    }

    fn end_of_interrupt(&mut self, number: u64) -> Answer {
        if !self.good_interrupt(number) {
            return refuse(14, 0);
        }
        let at = 4 * number as usize;
        let pending = self.interrupts[at + 3] & PENDING != 0;
        let queued = self.interrupts[at + 3] & QUEUED != 0;
        if !pending {
            return done();
        }
        if queued && self.interrupts[at + 2] != MASKED {
            self.interrupts[at + 3] &= !QUEUED;
            return self.present(number);
        }
        self.interrupts[at + 3] &= !PENDING;
        done()
    }

    fn set_priority(&mut self, number: u64, priority: u64) -> Answer {
        if priority > 255 {
            return refuse(2, 0);
        }
        if !self.good_interrupt(number) {
            return refuse(14, 0);
        }
        let at = 4 * number as usize;
        let old = self.interrupts[at + 2];
        self.interrupts[at + 2] = priority;
        if old == MASKED && priority != MASKED && self.interrupts[at + 3] & QUEUED != 0 {
            self.interrupts[at + 3] &= !QUEUED;
            return self.arrive(number);
        }
        done()
    }
}

/// The place of the fence word, after the words of n PEs. It is the last of the state, and no PE's.
pub fn fence_place(n: u64) -> usize {
    STATE_WORDS * n as usize
}

/// Whether a window covers an address, also one that ends at 2^64.
fn covers(base: u64, size: u64, address: u64) -> bool {
    address >= base && address - base < size
}
