// The exported functions that tell the premises of isolation: whom a request belongs to, whether a
// group is closed, and which table words are public or the group's. Figures are worked out here, and
// seeded tables of any length are compared with what the plain bridge answers. Built by rustc with
// --test; each test is a group of checks. A short table is a part of a whole one, so that a word
// read past its end would be a word of the whole.

#[path = "../plain/bridge.rs"]
#[allow(dead_code)]
mod bridge;
#[path = "../host/celltimber.rs"]
#[allow(dead_code)]
mod celltimber;
#[path = "owner_tables.rs"]
mod owner_tables;
#[allow(dead_code)]
mod random;

use bridge::{Bridge, Name, Part, Request};
use celltimber::*;
use owner_tables::OwnerTables;
use random::Random;

// ---- Owners ----

const M32: u64 = 1 << 32;
const WHOLE: u64 = 1 << 40;
const SEGMENTED: u64 = 1 << 41;

/// N=4. Requester 5 is PE 2 and requester 6 PE 0, the others are none; interrupt 7 is PE 2's, the
/// others are PE 0's. Segment 3 of M32 is PE 1's; M64 0 is PE 3's, M64 1 has segments of 1 MiB.
fn of_four_pes() -> Bridge {
    let mut t = Bridge::new(4, 8, 8, 0, 0);
    t.requesters = vec![9, 9, 9, 9, 9, 2, 0, 4];
    t.interrupts[28] = 2;
    let windows = [M32, 1 << 28, 1 << 31, WHOLE, 1 << 28, 1, 3, SEGMENTED, 1 << 28, 2, 9];
    t.windows[..11].copy_from_slice(&windows);
    t.segments[3] = 1;
    t
}

#[track_caller]
fn check_owners(tables: &OwnerTables, owners: &[(RequestWords, u64)]) {
    for (request, owner) in owners {
        assert_eq!(tables.owner(request), *owner, "the owner of {request:x?}");
    }
}

#[test]
fn owners_on_whole_tables() {
    let mut t = of_four_pes();
    // The private words of an interrupt do not tell whose it is.
    t.interrupts[29..32].fill(u64::MAX);
    let owners = [
        (dma(5, READ, 0x3ABC, 4, 0), 2),
        (dma(5, WRITE, 0xFFFF_0070, 4, 0), 2),
        (dma(6, READ, u64::MAX, 0, 0xFFFF_FFFF), 0),
        (dma(7, READ, 0x3ABC, 4, 0), NOBODY),
        (dma(8, READ, 0x3ABC, 4, 0), NOBODY),
        (error(5), 2),
        (error(0), NOBODY),
        (error(0x1_0005), NOBODY),
        (fatal(5), 2),
        (fatal(6), 0),
        (fatal(0), NOBODY),
        (fatal(7), NOBODY),
        (fatal(0x1_0005), NOBODY),
        (fence_clear(), NOBODY),
        ([FENCE_CLEAR, 5, 0, 0, 0, 0, 0, 0], NOBODY),
        (load(M32 + 0x30_0010, 4), 1),
        (store(M32 + 0x30_0010, 3), 1),
        (load(WHOLE, 8), 3),
        (load(WHOLE + (1 << 28), 8), NOBODY),
        (store(SEGMENTED + 0x20_0000, 8), 2),
        (store(SEGMENTED + 0x40_0000, 8), NOBODY),
        (clear(3, RECORD), 3),
        (clear(4, RECORD), NOBODY),
        (end(7), 2),
        (end(8), NOBODY),
        (priority(7, 256), 2),
        (priority(0x1_0007, 5), NOBODY),
    ];
    check_owners(&OwnerTables::of(&t), &owners);
    // N of 256 is the limit, and above it all is nobody's.
    t.requesters[0] = 255;
    let sized = |n| OwnerTables { n, ..OwnerTables::of(&t) };
    check_owners(&sized(256), &[(error(0), 255), (fatal(0), 255), (clear(255, MMIO_BIT), 255)]);
    for n in [0, 257, (1 << 16) + 4, u64::MAX] {
        check_owners(&sized(n), &owners.map(|(request, _)| (request, NOBODY)));
    }
}

#[test]
fn owners_on_short_tables() {
    let t = of_four_pes();
    let whole = OwnerTables::of(&t);
    for (length, of_5, of_6) in
        [(7, 2, 0), (6, 2, NOBODY), (5, NOBODY, NOBODY), (0, NOBODY, NOBODY)]
    {
        let short = OwnerTables { requesters: &t.requesters[..length], ..whole };
        check_owners(&short, &[(error(5), of_5), (dma(6, READ, 0, 4, 0), of_6)]);
        check_owners(&short, &[(fatal(5), of_5), (fatal(6), of_6), (fence_clear(), NOBODY)]);
    }
    // The first word of a record is its PE.
    for (length, of_6, of_7) in [(29, 0, 2), (28, 0, NOBODY), (24, NOBODY, NOBODY)] {
        let short = OwnerTables { interrupts: &t.interrupts[..length], ..whole };
        check_owners(&short, &[(end(6), of_6), (priority(7, 5), of_7), (end(7), of_7)]);
    }
    let third = load(M32 + 0x30_0000, 4);
    for (length, of_third, of_second) in [(4, 1, 0), (3, NOBODY, 0), (2, NOBODY, NOBODY)] {
        let short = OwnerTables { segments: &t.segments[..length], ..whole };
        check_owners(&short, &[(third, of_third), (store(M32 + 0x20_0000, 4), of_second)]);
    }
    // M64 0 has words 3 to 6 and M64 1 words 7 to 10, of which the last is not read.
    let segment = store(SEGMENTED, 8);
    for (length, of_whole, of_segment) in
        [(10, 3, 0), (9, 3, NOBODY), (7, 3, NOBODY), (6, NOBODY, NOBODY), (5, NOBODY, NOBODY)]
    {
        let short = OwnerTables { windows: &t.windows[..length], ..whole };
        check_owners(&short, &[(load(WHOLE, 8), of_whole), (segment, of_segment), (third, 1)]);
    }
    let none = OwnerTables { windows: &[], ..whole };
    check_owners(&none, &[(load(0, 8), NOBODY), (third, NOBODY), (segment, NOBODY)]);
}

#[test]
fn owners_past_the_tables() {
    // M and R are more than the tables hold; four times 2^62 is 0 in 64 bits.
    let t = of_four_pes();
    let many = OwnerTables { m: u64::MAX, r: u64::MAX, ..OwnerTables::of(&t) };
    check_owners(&many, &[(error(5), 2), (fatal(5), 2), (end(7), 2)]);
    for number in [8, 32, 0x1_0005, (1 << 32) + 5, (1 << 62) + 7, u64::MAX - 1] {
        check_owners(&many, &[(error(number), NOBODY), (dma(number, READ, 0, 4, 0), NOBODY)]);
        check_owners(&many, &[(fatal(number), NOBODY)]);
        check_owners(&many, &[(end(number), NOBODY), (priority(number, 5), NOBODY)]);
    }
}

#[test]
fn owners_of_words_that_name_no_request() {
    let t = of_four_pes();
    let unnamed = [
        [FENCE_CLEAR + 1, 5, 0, 0, 0, 0, 0, 0],
        [FENCE_CLEAR + 2, 5, 0, 0, 0, 0, 0, 0],
        [(1 << 32) + ERROR, 5, 0, 0, 0, 0, 0, 0],
        [(1 << 32) + FATAL, 5, 0, 0, 0, 0, 0, 0],
        [u64::MAX; 8],
        dma(5, 2, 0x3ABC, 4, 0),
        dma(5, (1 << 32) + WRITE, 0x3ABC, 4, 0),
        dma(5, READ, 0x3ABC, 4, 1 << 32),
        dma(5, WRITE, 0xFFFF_0070, 4, u64::MAX),
        clear(2, 3),
        clear(2, (1 << 32) + DMA_BIT),
    ];
    check_owners(&OwnerTables::of(&t), &unnamed.map(|request| (request, NOBODY)));
}

/// The tables at full length, with interrupts that are good where their PE is. A PE word that is
/// not there is nobody's; any other word is 0.
fn filled(tables: &OwnerTables) -> Bridge {
    fn put<T: Copy>(table: &mut [T], words: &[T]) {
        let length = table.len().min(words.len());
        table[..length].copy_from_slice(&words[..length]);
    }
    let mut full = Bridge::new(tables.n, tables.m, tables.r, 0, 0);
    full.requesters.fill(0xFFFF);
    full.segments.fill(0xFFFF);
    let pe_words = full.interrupts.iter_mut().step_by(4);
    pe_words.chain(full.windows[6..].iter_mut().step_by(4)).for_each(|word| *word = NOBODY);
    put(&mut full.requesters, tables.requesters);
    put(&mut full.segments, tables.segments);
    put(&mut full.windows, tables.windows);
    put(&mut full.interrupts, tables.interrupts);
    full.interrupts.chunks_mut(4).for_each(|record| record[1..].fill(0));
    full
}

/// Whom a request belongs to, told from answers of the plain bridge: an error message freezes the
/// requester's PE, a load of a byte passes with the PE of its window, and firmware is obeyed. A fence
/// clear is nobody's.
fn owner_by_answers(plain: &mut Bridge, request: &RequestWords) -> Option<u64> {
    let [kind, a, b, _, _, data, ..] = *request;
    let obeyed = |answer: bridge::Answer| answer.name == Name::Done;
    match kind {
        DMA if b > WRITE || data >> 32 != 0 => None,
        CLEAR if b > RECORD => None,
        DMA | ERROR | FATAL => {
            plain.handle(Request::Error { requester: a });
            let frozen = plain.state.chunks_exact(STATE_WORDS).position(|words| words[0] != 0);
            plain.state.fill(0);
            frozen.map(|pe| pe as u64)
        }
        LOAD | STORE => plain.handle(Request::Load { address: a, width: 1 }).pe,
        CLEAR => obeyed(plain.handle(Request::Clear { pe: a, part: Part::Mmio })).then_some(a),
        END | PRIORITY => obeyed(plain.handle(Request::End { interrupt: a }))
            .then(|| plain.interrupts[4 * a as usize]),
        _ => None,
    }
}

/// Tables of full length: words of PEs are up to N + 1, and windows overlap.
fn seeded(random: &mut Random) -> Bridge {
    let n = random.pick(&[1, 4, 63, 64, 65, 200, 256]);
    let mut t = Bridge::new(n, random.below(12), random.between(1, 30), 0, 0);
    for pe in t.requesters.iter_mut().chain(&mut t.segments) {
        *pe = random.below(n + 2) as u16;
    }
    for record in t.interrupts.chunks_mut(4) {
        record.fill_with(|| random.below(n + 2));
    }
    t.windows[..3].copy_from_slice(&[M32, 1 << 28, 1 << 31]);
    for window in t.windows[3..].chunks_mut(4) {
        let (base, size) = (random.between(1, 6) << 40, 1 << random.between(27, 32));
        let mode = random.pick(&[1, 1, 2, 2, 0, 3]);
        window.copy_from_slice(&[base, size, mode, random.below(n + 2)]);
    }
    t
}

/// The whole table, or its first words.
fn some_of<'a, T>(random: &mut Random, table: &'a [T]) -> &'a [T] {
    let cut = random.below(table.len() as u64 + 1) as usize;
    &table[..if random.percent(50) { table.len() } else { cut }]
}

fn seeded_request(random: &mut Random, t: &OwnerTables) -> RequestWords {
    let number = |random: &mut Random, limit| match random.below(20) {
        0 => random.any(),
        _ => random.below(limit + 2),
    };
    let kind = random.below(FENCE_CLEAR + 2);
    let first = match kind {
        DMA | ERROR | FATAL => number(random, t.r),
        LOAD | STORE => {
            let base = if random.percent(30) { M32 } else { random.between(1, 6) << 40 };
            let reach = 1 << random.between(20, 33);
            base + random.below(reach)
        }
        CLEAR => number(random, t.n),
        _ => number(random, t.m),
    };
    let second = random.below(if kind == DMA { 3 } else { 4 });
    let data = random.pick(&[0, 3, 0xFFFF_FFFF, 1 << 32]);
    [kind, first, second, random.any(), random.any(), data, random.next(), random.next()]
}

#[test]
fn owners_on_seeded_tables() {
    // How often each kind of request was somebody's, and nobody's.
    let mut counts = [[0; 2]; FENCE_CLEAR as usize + 2];
    for seed in 0..300 {
        let mut random = Random(seed);
        let t = seeded(&mut random);
        let tables = OwnerTables {
            requesters: some_of(&mut random, &t.requesters),
            interrupts: some_of(&mut random, &t.interrupts),
            windows: some_of(&mut random, &t.windows),
            segments: some_of(&mut random, &t.segments),
            ..OwnerTables::of(&t)
        };
        let mut plain = filled(&tables);
        for _ in 0..200 {
            let request = seeded_request(&mut random, &tables);
            let owner = owner_by_answers(&mut plain, &request);
            assert_eq!(
                tables.owner(&request),
                owner.unwrap_or(NOBODY),
                "seed {seed}, the owner of {request:x?}"
            );
            counts[request[0] as usize][usize::from(owner.is_none())] += 1;
        }
    }
    let [owned @ .., fence_clears, unnamed] = counts;
    let [somebodys, nobodys] = [0, 1].map(|k| fence_clears[k] + unnamed[k]);
    assert!(somebodys == 0 && nobodys >= 100, "{counts:?}");
    assert!(owned.iter().flatten().all(|&count| count >= 100), "{counts:?}");
}

// ---- Groups ----

/// The bit vector of some PEs.
fn bits(pes: &[usize]) -> [u64; 4] {
    let mut words = [0; 4];
    for pe in pes {
        words[pe / 64] |= 1 << (pe % 64);
    }
    words
}

/// Bit k of a bit vector; one past its end is 0.
fn bit(words: &[u64], k: usize) -> bool {
    words.get(k / 64).is_some_and(|word| word >> (k % 64) & 1 == 1)
}

#[test]
fn members() {
    let group = bits(&[0, 63, 64, 255]);
    let longer = [group[0], group[1], group[2], group[3], u64::MAX];
    for k in 0..400 {
        for group in [&group[..], &group[..1], &longer, &[]] {
            assert_eq!(member(group, k), k < 256 && bit(group, k as usize), "PE {k}");
        }
    }
    for k in [1 << 16, 1 << 32, NOBODY + 255, (1 << 32) + 63, u64::MAX] {
        assert!(!member(&longer, k), "PE {k}");
    }
}

#[test]
fn closed_below_n() {
    // PE 0 lists PEs 5 and 255, PE 4 lists PE 1; members are PEs 1, 5 and 200.
    let mut peers = [0; 24];
    peers[..4].copy_from_slice(&bits(&[5, 255]));
    peers[16..20].copy_from_slice(&bits(&[1]));
    let group = bits(&[1, 5, 200]);
    // A PE of N or above is neither asked nor asked about.
    for (n, closes) in [(0, true), (1, true), (4, true), (5, false), (6, false)] {
        assert_eq!(closed(n, &peers, &group), closes, "N is {n}");
    }
    assert!(closed(5, &peers, &bits(&[5, 200])));
    assert!(!closed(6, &peers, &bits(&[5, 200])));
    // A member may list others, and itself.
    assert!(closed(6, &peers, &bits(&[0, 4, 1, 5])));
    assert!(closed(6, &peers, &[]));
    // A vector that the table does not hold is empty.
    assert!(!closed(256, &peers, &group));
    assert!(closed(256, &peers[..16], &bits(&[1])));
    for n in [257, (1 << 16) + 4, u64::MAX] {
        assert!(!closed(n, &peers, &[]), "N is {n}");
    }
}

#[test]
fn closed_on_seeded_tables() {
    let mut counts = [0; 2];
    for seed in 0..2_000 {
        let mut random = Random(seed);
        let n = random.pick(&[1, 4, 63, 64, 65, 128, 255, 256]);
        let mut peers = vec![0; 4 * n + random.below(8) as usize];
        for _ in 0..random.below(8) {
            let word = random.below(peers.len() as u64) as usize;
            peers[word] |= random.next() & random.next() & random.next();
        }
        let peers = some_of(&mut random, &peers);
        let group = [(); 4].map(|_| random.next() & random.next());
        let outside = (0..n).filter(|&pe| !bit(&group, pe));
        let closes = !outside
            .flat_map(|pe| (0..n).map(move |k| (4 * 64 * pe + k, k)))
            .any(|(place, k)| bit(&group, k) && bit(peers, place));
        assert_eq!(closed(n as u64, peers, &group), closes, "seed {seed}");
        counts[usize::from(closes)] += 1;
        // Whatever the bits of N and above are.
        let mut other = group;
        (n..256).for_each(|k| other[k / 64] ^= 1 << (k % 64));
        assert_eq!(closed(n as u64, peers, &other), closes, "seed {seed}");
    }
    assert!(counts.iter().all(|&count| count >= 100), "{counts:?}");
}

/// The memory words that have a mark.
fn marked(n: u64, entries: &[u64], memory: &[u64], group: &[u64]) -> Vec<usize> {
    let marks = marks(n, entries, memory, group).expect("N is within its limit");
    (0..memory.len()).filter(|&j| marks[j] != 0).collect()
}

#[test]
fn covers_members_that_have_entries() {
    // PE 2 has a table of 512 words at word 512, with no level below.
    let mut entries = [0; 32];
    entries[16..20].copy_from_slice(&[0x1000, 1, 1, 1]);
    let memory = [0; 1_100];
    let group = bits(&[2, 4, 200, 255]);
    let table = (512..1_024).collect::<Vec<_>>();
    assert_eq!(marked(4, &entries, &memory, &group), table);
    assert_eq!(marked(256, &entries, &memory, &group), table);
    assert_eq!(marked(4, &entries, &memory[..700], &group), table[..188]);
    // PEs of N and above, members without a record, or with one that the table does not hold.
    assert_eq!(marked(2, &entries, &memory, &group), []);
    assert_eq!(marked(4, &entries, &memory, &bits(&[0, 3, 4, 200, 255])), []);
    assert_eq!(marked(4, &entries[..18], &memory, &group), []);
    assert_eq!(marked(4, &entries, &[], &group), []);
    // The same record, the second of its PE.
    entries.copy_within(16..20, 12);
    assert_eq!(marked(4, &entries, &memory, &bits(&[1])), table);
}

#[test]
fn covers_only_with_room() {
    let entries = [0, 1, 1, 1, 0, 0, 0, 0];
    let (memory, group) = ([0; 600], bits(&[0]));
    let call = |n, lengths: [usize; 3]| {
        let [mut marks, mut tables, mut under] = lengths.map(|length| vec![7; length]);
        (covers(n, &entries, &memory, &group, &mut marks, &mut tables, &mut under), marks)
    };
    for lengths in [[599, 600, 600], [601, 600, 600], [600, 0, 600], [600, 600, 601]] {
        assert_eq!(call(1, lengths), (false, vec![7; lengths[0]]), "{lengths:?}");
    }
    for n in [257, (1 << 16) + 1, u64::MAX] {
        assert_eq!(call(n, [600; 3]), (false, vec![7; 600]), "N is {n}");
    }
    for n in [1, 256] {
        let (told, marks) = call(n, [600; 3]);
        assert!(told && marks[..512].iter().all(|&mark| mark != 0) && marks[512..] == [0; 88]);
    }
}

/// The words that walks by a record read, from a walk of each of its pages. A page of the first
/// record whose addresses are all of the 32-bit MSI window is not walked.
fn read_by(record: &[u64], second: bool, memory: &[u64], read: &mut [bool]) {
    let [base, levels, table, page] = *record else { panic!("a record has four words") };
    let bits = table + 8;
    let inside = match page {
        1 | 5 | 13 | 17 => page + 11,
        _ => return,
    };
    let span = levels.saturating_mul(bits).saturating_add(inside);
    if !(1..=31).contains(&table)
        || !(1..=5).contains(&levels)
        || base % (8 << bits) != 0
        || span > 59
    {
        return;
    }
    for page in 0..1u64 << (levels * bits) {
        let (first, last) = (page << inside, ((page + 1) << inside) - 1);
        if !second && first >= 0xFFFF_0000 && last <= 0xFFFF_FFFF {
            continue;
        }
        let mut table = base;
        for below in (0..levels).rev() {
            let word = (table / 8 + (page >> (bits * below)) % (1 << bits)) as usize;
            let Some(&value) = memory.get(word) else { break };
            read[word] = true;
            table = value / 4_096 * 4_096;
            if value % 4 == 0 || table % (8 << bits) != 0 {
                break;
            }
        }
    }
}

#[test]
fn covers_what_walks_of_each_page_read() {
    // How many words were marked, how many were not, and how many only for the MSI window.
    let mut counts = [0; 3];
    for seed in 0..100 {
        let mut random = Random(seed);
        let mut memory = vec![0; random.pick(&[512, 3_000, 4_096, 4_096])];
        // Every other seed has one record, and no words that lead on but the next ones.
        let alone = seed % 2 == 0;
        let filled = if alone { 0 } else { 2 };
        for word in memory.iter_mut() {
            if random.percent(filled) {
                *word = random.below(9) * 4_096 + random.below(4);
            }
        }
        // The words that page 0xFFFF0 of 4 KiB and page 0xFFFF of 64 KiB have in an upper table.
        for place in [0x3FF, 0x7FF, 0xBFF, 0x7F, 0x27F, 0x47F, 0x67F, 0x87F, 0xA7F] {
            let leads = random.pick(&[2, 4, 6, 7]) * 4_096 + 3;
            if place < memory.len() && random.percent(70) {
                memory[place] = leads;
            }
        }
        let mut entries = vec![0; 32];
        for record in entries.chunks_mut(4) {
            let base = random.below(4) * if random.percent(90) { 8_192 } else { 4_104 };
            let code = random.pick(&[1, 1, 2]);
            let levels = if random.percent(80) { 2 } else { 1 };
            let page = random.pick(&[1, 1, 5, 5, 13, 17, 0, 2]);
            record.copy_from_slice(&[base, levels, code, page]);
        }
        if alone {
            let (code, page) = random.pick(&[(2, 1), (1, 5)]);
            entries.fill(0);
            entries[..4].copy_from_slice(&[random.below(3) * 8_192, 2, code, page]);
        }
        let n = random.between(3, 4);
        let members = random.pick(&[&[0][..], &[0, 3]]);
        let [mut read, mut all] = [(); 2].map(|()| vec![false; memory.len()]);
        for pe in members.iter().copied().filter(|&pe| pe < n as usize) {
            let (first, second) = entries[8 * pe..8 * pe + 8].split_at(4);
            read_by(first, false, &memory, &mut read);
            read_by(first, true, &memory, &mut all);
            read_by(second, true, &memory, &mut read);
            read_by(second, true, &memory, &mut all);
        }
        let words = (0..memory.len()).filter(|&j| read[j]).collect::<Vec<_>>();
        assert_eq!(marked(n, &entries, &memory, &bits(members)), words, "seed {seed}");
        counts[0] += words.len();
        counts[1] += memory.len() - words.len();
        counts[2] += all.iter().filter(|&&read| read).count() - words.len();
    }
    assert!(counts[..2].iter().all(|&count| count >= 1_000) && counts[2] >= 20, "{counts:?}");
}

#[test]
fn covers_through_five_levels() {
    // A table of 512 words that leads to itself, and at its index 1 to the next; 2^45 pages.
    let mut memory = [0; 1_600];
    memory[..512].fill(3);
    memory[1] = 0x1003;
    let entries = [0, 5, 1, 1, 0, 0, 0, 0];
    assert_eq!(marked(1, &entries, &memory, &bits(&[0])), (0..1_024).collect::<Vec<_>>());
    // A word of the next table leads on only if it is reached with a level below.
    memory[600] = 0x2003;
    let all = (0..1_536).collect::<Vec<_>>();
    assert_eq!(marked(1, &entries, &memory, &bits(&[0])), all);
    let two_levels = [0, 2, 1, 1, 0, 0, 0, 0];
    assert_eq!(marked(1, &two_levels, &memory, &bits(&[0])), all[..1_024]);
}

#[test]
fn seen_words() {
    // Interrupt 0 is PE 2's and interrupt 1 PE 0's; memory word 1 has a mark.
    let interrupts = [2, 5, 6, 0, 0, 5, 6, 0];
    let (of_2, of_0) = (bits(&[2]), bits(&[0]));
    let tells_of = |n, interrupts: &[u64], group: &[u64], table, count| -> Vec<usize> {
        (0..count).filter(|&k| seen(n, interrupts, &[0, 8], group, table, k)).collect()
    };
    let tells = |interrupts: &[u64], group: &[u64], table, count| {
        tells_of(9, interrupts, group, table, count)
    };
    for public in [0, 3, 5, 6] {
        assert_eq!(tells(&interrupts, &[], public, 9), [0, 1, 2, 3, 4, 5, 6, 7, 8]);
    }
    assert_eq!(tells(&interrupts, &of_2, 1, 40), [16, 17, 18, 19, 20, 21, 22, 23]);
    assert_eq!(tells(&interrupts, &of_2, 2, 9), [1]);
    // The fence word comes after the words of N PEs, and is public whatever the group is. The words
    // before it are their PEs'.
    assert_eq!(tells(&interrupts, &of_2, TABLE_STATE, 37), [8, 9, 10, 11, 36]);
    assert_eq!(tells(&interrupts, &[], TABLE_STATE, 37), [36]);
    for (n, fence) in [(1, 4), (2, 8), (4, 16), (64, 256), (256, 1_024)] {
        assert_eq!(tells_of(n, &interrupts, &[], TABLE_STATE, fence + 1), [fence]);
        let of_n = bits(&[n as usize % 256]);
        let mut seen = if n == 256 { vec![0, 1, 2, 3] } else { Vec::new() };
        seen.push(fence);
        assert_eq!(tells_of(n, &interrupts, &of_n, TABLE_STATE, fence + 1), seen);
    }
    // The PE word of each interrupt is public. What is past the table is nobody's.
    assert_eq!(tells(&interrupts, &[], 4, 16), [0, 4, 8, 12]);
    assert_eq!(tells(&interrupts, &of_2, 4, 16), [0, 1, 2, 3, 4, 8, 12]);
    assert_eq!(tells(&interrupts, &of_0, 4, 16), [0, 4, 5, 6, 7, 8, 12]);
    assert_eq!(tells(&interrupts[..4], &of_0, 4, 16), [0, 4, 8, 12]);
}
