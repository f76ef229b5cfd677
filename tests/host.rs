// What tests/host.c prints, from Rust by host/celltimber.rs: the same tables, the same requests,
// the same lines. tests/host.test compares the two.

#[path = "../host/celltimber.rs"]
#[allow(dead_code)]
mod celltimber;

use celltimber::*;

const PES: usize = 4;
const INTERRUPTS: usize = 8;
const REQUESTERS: usize = 8;
const MEMORY: usize = 0x1000;

/// The installed size ends after the 4 bytes that the first request reads.
const INSTALLED: u64 = 0x1234_5AC0;

fn requests() -> Vec<RequestWords> {
    vec![
        // DMA: one level, both directions; two levels; bypass
        dma(5, READ, 0x3ABC, 4, 0),
        dma(5, WRITE, 0x3ABC, 4, 0xFFFF_FFFF),
        dma(6, WRITE, 0x40_3010, 4, 0),
        dma(5, READ, 0x0800_0000_0100_0000, 4_096, 0),
        // MSI: presented, held, ended twice; held by its priority, and released
        dma(5, WRITE, 0x1000_0000_0000_0070, 4, 3),
        dma(5, WRITE, 0xFFFF_0070, 4, 0),
        end(7),
        [END, 7, 1, 2, 3, 4, 5, 6],
        priority(7, HOLDING),
        dma(5, WRITE, 0xFFFF_0070, 4, 0),
        priority(7, 6),
        priority(7, 256),
        priority(6, 5),
        end(8),
        // loads and stores: M32, M64 whole and by segments; badly formed; no window; a segment that
        // is no PE
        load(0x1_0030_0010, 4),
        store((1 << 40) + 8, 8),
        load((1 << 41) + 0x20_0000, 2),
        load(0x1_0030_0011, 4),
        store(0, 1),
        load((1 << 41) + 0xC80_0000, 1),
        // refused, nothing changes
        dma(5, READ, 0x3000, 0, 0),
        dma(7, READ, 0x3000, 4, 0),
        error(8),
        clear(4, RECORD),
        // a class that is not served freezes PE 2, and not its peer, PE 3
        dma(5, READ, 2 << 60, 1, 0),
        dma(5, READ, 0x3ABC, 4, 0),
        load((1 << 41) + 0x20_0000, 2),
        store((1 << 40) + 8, 8),
        // an error message of PE 2 freezes its peer
        error(5),
        store((1 << 40) + 8, 8),
        clear(2, MMIO_BIT),
        clear(3, DMA_BIT),
        clear(2, RECORD),
        // the other refusals that freeze, each after a release
        clear(2, DMA_BIT),
        dma(5, READ, 0x20_0000, 1, 0),
        clear(2, DMA_BIT),
        dma(5, READ, 0x4000, 1, 0),
        clear(2, DMA_BIT),
        dma(5, READ, 0xFFFF_0070, 4, 0),
        dma(0, READ, 0, 1, 0),
        clear(3, DMA_BIT),
        clear(3, RECORD),
        dma(3, READ, 0, 1, 0),
        // the first byte that is not installed
        clear(2, DMA_BIT),
        clear(2, RECORD),
        dma(5, READ, 0x3ABC, 5, 0),
        // an error message freezes PE 1; its peer, PE 2, has a record already
        error(6),
        clear(1, MMIO_BIT),
        // a fence clear without a fence, and a fatal message of an unknown requester; one of PE 1,
        // whose DMA bit is set, fences the bridge
        [FENCE_CLEAR, 1, 2, 3, 4, 5, 6, 7],
        fatal(7),
        [FATAL, 6, 1, 2, 3, 4, 5, 6],
        dma(5, READ, 0x3ABC, 4, 0),
        dma(7, READ, 0x3ABC, 4, 0),
        dma(5, READ, 0x3ABC, 0, 0),
        dma(5, WRITE, 0xFFFF_0070, 4, 0),
        load(0x1_0030_0010, 4),
        load(0, 8),
        store((1 << 40) + 8, 8),
        error(5),
        priority(7, 5),
        fatal(5),
        // the fence is cleared, and set again at the end
        fence_clear(),
        load(0x1_0030_0010, 4),
        fatal(0),
        // words that name no request, those of a bridge with a cache among them
        edit(0x403, 0),
        invalidate_all(),
        [INVALIDATE + 1, 5, 0, 0, 0, 0, 0, 0],
        [UNNAMED, 0, 0, 0, 0, 0, 0, 0],
        dma(5, WRITE + 1, 0x3ABC, 4, 0),
        dma(5, READ, 0x3ABC, 4, 1 << 32),
        clear(2, RECORD + 1),
    ]
}

/// Of the bridge with a cache; a sequence from the first on.
fn cached_requests() -> Vec<RequestWords> {
    vec![
        [INVALIDATE, SCOPE_ALL, 9, 9, 9, 9, 9, 9],
        // a miss and a hit over one level, and over two; a bypass; a hit that is not installed
        dma(5, READ, 0x3ABC, 4, 0),
        dma(5, WRITE, 0x3000, 1, 0),
        dma(6, WRITE, 0x40_3010, 4, 0),
        dma(6, READ, 0x40_3FFF, 1, 0),
        dma(5, READ, 0x0800_0000_0100_0000, 4_096, 0),
        dma(5, READ, 0x3AC0, 1, 0),
        clear(2, DMA_BIT),
        // an edit of a last word drops its page: reads are allowed then, and a write is walked to 8
        [EDIT, 0x2018 / 8, 0x1234_5001, 9, 9, 9, 9, 9],
        dma(5, READ, 0x3ABC, 4, 0),
        dma(5, WRITE, 0x3ABC, 4, 0),
        clear(2, DMA_BIT),
        // an edit of an upper word drops the page too, and so does one that writes the word that is
        // there
        edit(0x2010 / 8, 0x6003),
        edit(0x6018 / 8, 0xA003),
        dma(6, WRITE, 0x40_3010, 4, 0),
        edit(0x2010 / 8, 0x6003),
        dma(6, READ, 0x40_3010, 4, 0),
        // edits of no word of memory; a PE that is not there, and a scope that is not there
        edit(MEMORY as u64, 1),
        edit(u64::MAX, 1),
        invalidate_pe(PES as u64),
        invalidate_address(PES as u64, 0x3ABC),
        [INVALIDATE, SCOPE_ADDRESS + 1, PES as u64, 0x3ABC, 0, 0, 0, 0],
        [INVALIDATE + 1, 0, 0, 0, 0, 0, 0, 0],
        [UNNAMED, 0, 0, 0, 0, 0, 0, 0],
        // by address: a page that is not held, and on a fenced bridge one that is, with bits above 59;
        // by PE, with nothing to drop the second time
        [INVALIDATE, SCOPE_ADDRESS, 2, 0x4000, 9, 9, 9, 9],
        fatal(0),
        [INVALIDATE, SCOPE_ADDRESS, 2, 0xF000_0000_0000_3ABC, 9, 9, 9, 9],
        dma(6, READ, 0x40_3010, 4, 0),
        [INVALIDATE, SCOPE_PE, 1, 9, 9, 9, 9, 9],
        invalidate_pe(1),
        edit(0x2018 / 8, 0x1234_5003),
        fence_clear(),
        // each other kind
        dma(5, READ, 0x3ABC, 4, 0),
        dma(5, WRITE, 0xFFFF_0070, 4, 0),
        end(7),
        priority(7, 6),
        load(0x1_0030_0010, 4),
        store((1 << 40) + 8, 8),
        error(5),
        dma(5, READ, 0x3ABC, 4, 0),
    ]
}

/// The tables, and how many words each is lent fewer than it has.
struct Tables {
    requesters: Vec<u16>,
    entries: Vec<u64>,
    memory: Vec<u64>,
    peers: Vec<u64>,
    interrupts: Vec<u64>,
    windows: Vec<u64>,
    segments: Vec<u16>,
    state: Vec<u64>,
    cut: [usize; 8],
}

fn put(to: &mut [u64], words: &[u64]) {
    to[..words.len()].copy_from_slice(words);
}

fn shorter<T>(table: &[T], cut: usize) -> &[T] {
    &table[..table.len() - cut]
}

fn shorter_mut<T>(table: &mut [T], cut: usize) -> &mut [T] {
    let length = table.len() - cut;
    &mut table[..length]
}

impl Tables {
    fn start() -> Tables {
        let mut t = Tables {
            requesters: vec![0, 1, 2, 3, 9, 2, 1, 4],
            entries: vec![0; ENTRY_WORDS * PES],
            memory: vec![0; MEMORY],
            peers: vec![0; PEER_WORDS * PES],
            interrupts: vec![0; INTERRUPT_WORDS * INTERRUPTS],
            windows: vec![0; WINDOW_WORDS],
            segments: vec![0; SEGMENT_COUNT],
            state: vec![0; STATE_WORDS * PES + FENCE_WORDS],
            cut: [0; 8],
        };
        put(&mut t.entries[ENTRY_WORDS..], &[0x2000, 2, 1, 1]);
        put(&mut t.entries[2 * ENTRY_WORDS..], &[0x2000, 1, 1, 1]);
        put(&mut t.entries[2 * ENTRY_WORDS + RECORD_WORDS..], &[1, 2, 1, 0]);
        put(&mut t.entries[3 * ENTRY_WORDS..], &[0x8000, 1, 1, 1]);
        t.memory[0x2010 / 8] = 0x5001;
        t.memory[0x2018 / 8] = 0x1234_5003;
        t.memory[0x5018 / 8] = 0x9003;
        t.peers[PEER_WORDS] = 1 << 2;
        t.peers[2 * PEER_WORDS] = 1 << 3;
        put(&mut t.interrupts[6 * INTERRUPT_WORDS..], &[2, 1 << 24, 5, 0]);
        put(&mut t.interrupts[7 * INTERRUPT_WORDS..], &[2, 0x42, 5, 0]);
        put(&mut t.windows, &[1 << 32, 1 << 28, 1 << 31]);
        put(&mut t.windows[M32_WORDS..], &[1 << 40, 1 << 28, 1, 3]);
        put(&mut t.windows[M32_WORDS + M64_WORDS..], &[1 << 41, 1 << 28, 2, 9]);
        t.segments[3] = 1;
        t.state[3 * STATE_WORDS] = 0xF0;
        t.state[PES * STATE_WORDS] = 0xE0;
        t
    }

    fn run(&mut self, requests: &[u64], answers: &mut [u64]) -> usize {
        let cut = |table: u64| self.cut[table as usize];
        run(
            PES as u64,
            INTERRUPTS as u64,
            REQUESTERS as u64,
            INSTALLED,
            shorter(&self.requesters, cut(TABLE_REQUESTERS)),
            shorter(&self.entries, cut(TABLE_ENTRIES)),
            shorter(&self.memory, cut(TABLE_MEMORY)),
            shorter(&self.peers, cut(TABLE_PEERS)),
            shorter_mut(&mut self.interrupts, cut(TABLE_INTERRUPTS)),
            shorter(&self.windows, cut(TABLE_WINDOWS)),
            shorter(&self.segments, cut(TABLE_SEGMENTS)),
            shorter_mut(&mut self.state, cut(TABLE_STATE)),
            requests,
            answers,
        )
    }

    /// The same with a cache, with every word of the tables.
    fn cached_run(&mut self, cache: &mut [u64], requests: &[u64], answers: &mut [u64]) -> usize {
        cached_run(
            PES as u64,
            INTERRUPTS as u64,
            REQUESTERS as u64,
            INSTALLED,
            &self.requesters,
            &self.entries,
            &mut self.memory,
            &self.peers,
            &mut self.interrupts,
            &self.windows,
            &self.segments,
            &mut self.state,
            cache,
            requests,
            answers,
        )
    }
}

fn print(name: &str, words: &[u64]) {
    let words = words.iter().map(|word| format!(" {word:x}")).collect::<String>();
    println!("{name}{words}");
}

fn kinds() {
    let mut t = Tables::start();
    for request in requests() {
        let mut answer = [0; ANSWER_WORDS];
        assert_eq!(t.run(&request, &mut answer), 1);
        print("request", &request);
        let walked = matches!(answer[AT_REASON], REASON_TABLE_WORD | REASON_OUTSIDE_MEMORY);
        assert_eq!(answer[AT_WORD] != 0, walked);
        print("answer", &answer);
        print("state", &t.state);
        print("interrupts", &t.interrupts);
    }
    // PE 0 is frozen, and the MMIO bit of PE 1 is cleared.
    assert_eq!([t.state[0], t.state[STATE_WORDS]], [MMIO_STOP | DMA_STOP, DMA_STOP]);
    // PE 3's table is past memory. After its error record comes the fence word: a fatal message has
    // set the fence.
    let last = [REASON_OUTSIDE_MEMORY, 0, 0x8000, 0xE0 | FENCE];
    assert_eq!(t.state[3 * STATE_WORDS + 1..], last);
    // PE 2 asked for a byte that is not installed.
    let above = &t.state[2 * STATE_WORDS + 1..3 * STATE_WORDS];
    assert_eq!(above, [REASON_ABOVE_INSTALLED, 0x3ABC, 0]);
}

fn cached_kinds() {
    let mut t = Tables::start();
    let mut cache = vec![0x5A5A_5A5A_5A5A_5A5A; CACHE_WORDS];
    let mut answer = [0; ANSWER_WORDS];
    for request in cached_requests() {
        assert_eq!(t.cached_run(&mut cache, &request, &mut answer), 1);
        print("cached request", &request);
        print("cached answer", &answer);
        print("cached state", &t.state);
        for (k, slot) in cache.chunks(SLOT_WORDS).enumerate().filter(|(_, slot)| slot[0] != 0) {
            print(&format!("slot {k}:"), slot);
        }
        print("upper and last word", &t.memory[0x2010 / 8..][..2]);
        print("last word", &t.memory[0x6018 / 8..][..1]);
    }
    for length in [0, CACHE_WORDS - 1] {
        t.cached_run(&mut cache[..length], &cached_requests()[0], &mut answer);
        print("cached, too short", &answer);
    }
}

fn lengths() {
    let words = requests().concat();
    let mut t = Tables::start();
    let mut answers = [0; 3 * ANSWER_WORDS];
    for k in 0..=answers.len() {
        let by_answers = t.run(&words[..3 * REQUEST_WORDS], &mut answers[..k]);
        let by_requests = t.run(&words[..k], &mut answers);
        println!("served {by_answers} {by_requests}");
    }
    for table in 0..8 {
        let mut t = Tables::start();
        t.cut[table] = 1;
        t.run(&words[..REQUEST_WORDS], &mut answers);
        print("one word short", &answers[..ANSWER_WORDS]);
    }
}

fn pointers() {
    let words = requests();
    let mut answer = [0; ANSWER_WORDS];
    let none = |requests: &[u64], answers: &mut [u64]| {
        let (pes, state) = (PES as u64, &mut []);
        run(pes, 0, 1, INSTALLED, &[], &[], &[], &[], &mut [], &[], &[], state, requests, answers)
    };
    println!("served {}", none(&[], &mut []));
    none(&words[0], &mut answer);
    print("no tables", &answer);
    let none = |requests: &[u64], answers: &mut [u64]| {
        let (n, [a, b, c, d]) = (PES as u64, [(); 4].map(|()| &mut [][..]));
        cached_run(n, 0, 1, INSTALLED, &[], &[], a, &[], b, &[], &[], c, d, requests, answers)
    };
    println!("cached, served {}", none(&[], &mut []));
    none(&words[0], &mut answer);
    print("cached, no tables", &answer);
    let mut t = Tables::start();
    for installed in [INSTALLED, u64::MAX, 0] {
        run(
            PES as u64,
            0,
            REQUESTERS as u64,
            installed,
            &t.requesters,
            &t.entries,
            &[],
            &t.peers,
            &mut [],
            &t.windows,
            &t.segments,
            &mut t.state,
            &words[3],
            &mut answer,
        );
        print("no memory", &answer);
    }
    let mut t = Tables::start();
    t.run(&words[0], &mut answer);
    print("overlapping", &answer);
}

fn groups() {
    let t = Tables::start();
    for request in requests() {
        let owner = owner(
            PES as u64,
            INTERRUPTS as u64,
            REQUESTERS as u64,
            &t.requesters,
            &t.interrupts,
            &t.windows,
            &t.segments,
            &request,
        );
        println!("owner {owner}");
    }
    for members in [0x6, 0xE, 0xC, 0x8, 0x2, 0x0] {
        let group = [members, 0, 0, 0];
        let [mut marks, mut tables, mut under] = [(); 3].map(|()| vec![0; t.memory.len()]);
        let mut made = |pes: u64, length: usize| {
            let marks = &mut marks[..length];
            let made = covers(pes, &t.entries, &t.memory, &group, marks, &mut tables, &mut under);
            u64::from(made)
        };
        let length = t.memory.len();
        println!(
            "group {members:x}: closed {}, covers {}, too many PEs {}, a mark short {}",
            u64::from(closed(PES as u64, &t.peers, &group)),
            made(PES as u64, length),
            made(MOST_PES + 1, length),
            made(PES as u64, length - 1)
        );
        print!("marks");
        for (k, _) in marks.iter().enumerate().filter(|(_, &mark)| mark != 0) {
            print!(" {k:x}");
        }
        println!();
        let numbers = [0, 1, 2, 3, 63, 64, 255, 256, NOBODY];
        print("members", &numbers.map(|number| u64::from(member(&group, number))));
        let words = [0, 1, 2, 3, 4, 5, 6, 7].map(|table| {
            let first: usize = if table == TABLE_MEMORY { 0x3E0 } else { 0 };
            let told = |k| seen(PES as u64, &t.interrupts, &marks, &group, table, first + k);
            (0..64).fold(0, |words, k| words | u64::from(told(k)) << k)
        });
        print("seen", &words);
    }
    println!(
        "no group: member {}, closed {}",
        u64::from(member(&[], 1)),
        u64::from(closed(PES as u64, &t.peers, &[]))
    );
}

fn main() {
    kinds();
    cached_kinds();
    lengths();
    pointers();
    groups();
}
