// The exported functions as Rust calls them, and the numbers of requests, answers and tables.
// docs/HOST.md says what each word is, and host/celltimber.h has the same for C: each number here
// stands there under its name with CELLTIMBER_ before it.
//
// Link libbridge.a for `run` and `cached_run`, libisolation_tests.a for `owner`, `member`, `closed`,
// `covers` and `seen`. A program that calls none of an archive's functions need not link it.

/// The words of one request and of one answer.
pub const REQUEST_WORDS: usize = 8;
pub const ANSWER_WORDS: usize = 8;

pub type RequestWords = [u64; REQUEST_WORDS];
pub type AnswerWords = [u64; ANSWER_WORDS];

// ---- Requests ----

// The first word of a request. `EDIT` and `INVALIDATE` are of `cached_run` alone: to `run` they name
// no request. The last of these names none, now and later.
pub const DMA: u64 = 0;
pub const LOAD: u64 = 1;
pub const STORE: u64 = 2;
pub const ERROR: u64 = 3;
pub const CLEAR: u64 = 4;
pub const END: u64 = 5;
pub const PRIORITY: u64 = 6;
pub const FATAL: u64 = 7;
pub const FENCE_CLEAR: u64 = 8;
pub const EDIT: u64 = 9;
pub const INVALIDATE: u64 = 10;
pub const UNNAMED: u64 = u64::MAX;

// The direction of a DMA.
pub const READ: u64 = 0;
pub const WRITE: u64 = 1;

// The part of a PE that firmware clears.
pub const MMIO_BIT: u64 = 0;
pub const DMA_BIT: u64 = 1;
pub const RECORD: u64 = 2;

// What an invalidate drops of the cache: all, what is of a PE, or the page of a PE around an address.
pub const SCOPE_ALL: u64 = 0;
pub const SCOPE_PE: u64 = 1;
pub const SCOPE_ADDRESS: u64 = 2;

pub fn dma(requester: u64, direction: u64, address: u64, length: u64, data: u64) -> RequestWords {
    [DMA, requester, direction, address, length, data, 0, 0]
}

pub fn load(address: u64, width: u64) -> RequestWords {
    [LOAD, address, width, 0, 0, 0, 0, 0]
}

pub fn store(address: u64, width: u64) -> RequestWords {
    [STORE, address, width, 0, 0, 0, 0, 0]
}

pub fn error(requester: u64) -> RequestWords {
    [ERROR, requester, 0, 0, 0, 0, 0, 0]
}

pub fn clear(pe: u64, part: u64) -> RequestWords {
    [CLEAR, pe, part, 0, 0, 0, 0, 0]
}

pub fn end(interrupt: u64) -> RequestWords {
    [END, interrupt, 0, 0, 0, 0, 0, 0]
}

pub fn priority(interrupt: u64, priority: u64) -> RequestWords {
    [PRIORITY, interrupt, priority, 0, 0, 0, 0, 0]
}

pub fn fatal(requester: u64) -> RequestWords {
    [FATAL, requester, 0, 0, 0, 0, 0, 0]
}

pub fn fence_clear() -> RequestWords {
    [FENCE_CLEAR, 0, 0, 0, 0, 0, 0, 0]
}

/// Word `number` of memory, which is at byte 8 * `number`, becomes `value`.
pub fn edit(number: u64, value: u64) -> RequestWords {
    [EDIT, number, value, 0, 0, 0, 0, 0]
}

pub fn invalidate_all() -> RequestWords {
    [INVALIDATE, SCOPE_ALL, 0, 0, 0, 0, 0, 0]
}

pub fn invalidate_pe(pe: u64) -> RequestWords {
    [INVALIDATE, SCOPE_PE, pe, 0, 0, 0, 0, 0]
}

pub fn invalidate_address(pe: u64, address: u64) -> RequestWords {
    [INVALIDATE, SCOPE_ADDRESS, pe, address, 0, 0, 0, 0]
}

// ---- Answers ----

// The place of each word in an answer.
pub const AT_NAME: usize = 0;
pub const AT_REASON: usize = 1;
pub const AT_VALUE: usize = 2;
pub const AT_WORDS: usize = 3;
pub const AT_PE: usize = 4;
pub const AT_SERVER: usize = 5;
pub const AT_PRIORITY: usize = 6;
pub const AT_WORD: usize = 7;

// The first word of an answer.
pub const PASS: u64 = 0;
pub const MSI: u64 = 1;
pub const HELD: u64 = 2;
pub const ONES: u64 = 3;
pub const DROP: u64 = 4;
pub const REFUSE: u64 = 5;
pub const DONE: u64 = 6;

// The reason of an answer and of an error record; 0 is none.
pub const REASON_TABLE_LENGTH: u64 = 1;
pub const REASON_BAD_REQUEST: u64 = 2;
pub const REASON_UNKNOWN_REQUESTER: u64 = 3;
pub const REASON_DMA_STOPPED: u64 = 4;
pub const REASON_ADDRESS_CLASS: u64 = 5;
pub const REASON_BAD_ENTRY: u64 = 6;
pub const REASON_OUTSIDE_WINDOW: u64 = 7;
pub const REASON_TABLE_WORD: u64 = 8;
pub const REASON_MSI_REFUSED: u64 = 9;
pub const REASON_NO_WINDOW: u64 = 10;
pub const REASON_MMIO_STOPPED: u64 = 11;
pub const REASON_ERROR_MESSAGE: u64 = 12;
pub const REASON_FROZEN_AS_PEER: u64 = 13;
pub const REASON_BAD_FIRMWARE: u64 = 14;
pub const REASON_OUTSIDE_MEMORY: u64 = 15;
pub const REASON_ABOVE_INSTALLED: u64 = 17;
pub const REASON_FENCED: u64 = 18;

// ---- Tables ----

// The most PEs, interrupts, requesters and words of memory.
pub const MOST_PES: u64 = 256;
pub const MOST_INTERRUPTS: u64 = 4_096;
pub const MOST_REQUESTERS: u64 = 65_536;
pub const MOST_MEMORY: u64 = 1_048_576;

// The words of a PE's translation entries and of one of its two records, of a peer vector, of an
// interrupt, of a PE's state. The words of the state after those of all PEs: the fence word.
pub const ENTRY_WORDS: usize = 8;
pub const RECORD_WORDS: usize = 4;
pub const PEER_WORDS: usize = 4;
pub const INTERRUPT_WORDS: usize = 4;
pub const STATE_WORDS: usize = 4;
pub const FENCE_WORDS: usize = 1;

// The words of all windows: those of M32 first, then those of the M64 windows. The segments of M32.
pub const WINDOW_WORDS: usize = 67;
pub const M32_WORDS: usize = 3;
pub const M64_WORDS: usize = 4;
pub const M64_COUNT: usize = 16;
pub const SEGMENT_COUNT: usize = 256;

// The words of the cache, and of one of its 256 slots.
pub const CACHE_WORDS: usize = 1_024;
pub const SLOT_WORDS: usize = 4;

/// The priority that holds every MSI.
pub const HOLDING: u64 = 255;

// The bits of a stop word, of the fence word, and of the last word of an interrupt.
pub const MMIO_STOP: u64 = 1;
pub const DMA_STOP: u64 = 2;
pub const FENCE: u64 = 1;
pub const P: u64 = 2;
pub const Q: u64 = 1;

/// The owner of a request that belongs to nobody.
pub const NOBODY: u64 = 65_536;

// The number of each table, in the order in which `run` takes them.
pub const TABLE_REQUESTERS: u64 = 0;
pub const TABLE_ENTRIES: u64 = 1;
pub const TABLE_MEMORY: u64 = 2;
pub const TABLE_PEERS: u64 = 3;
pub const TABLE_INTERRUPTS: u64 = 4;
pub const TABLE_WINDOWS: u64 = 5;
pub const TABLE_SEGMENTS: u64 = 6;
pub const TABLE_STATE: u64 = 7;

// ---- libbridge.a ----

extern "C" {
    fn celltimber_run(
        pes: u64,
        interrupt_count: u64,
        requester_count: u64,
        installed: u64,
        requesters: *const u16,
        requesters_length: usize,
        entries: *const u64,
        entries_length: usize,
        memory: *const u64,
        memory_length: usize,
        peers: *const u64,
        peers_length: usize,
        interrupts: *mut u64,
        interrupts_length: usize,
        windows: *const u64,
        windows_length: usize,
        segments: *const u16,
        segments_length: usize,
        state: *mut u64,
        state_length: usize,
        requests: *const u64,
        requests_length: usize,
        answers: *mut u64,
        answers_length: usize,
    ) -> usize;
    fn celltimber_cached_run(
        pes: u64,
        interrupt_count: u64,
        requester_count: u64,
        installed: u64,
        requesters: *const u16,
        requesters_length: usize,
        entries: *const u64,
        entries_length: usize,
        memory: *mut u64,
        memory_length: usize,
        peers: *const u64,
        peers_length: usize,
        interrupts: *mut u64,
        interrupts_length: usize,
        windows: *const u64,
        windows_length: usize,
        segments: *const u16,
        segments_length: usize,
        state: *mut u64,
        state_length: usize,
        cache: *mut u64,
        cache_length: usize,
        requests: *const u64,
        requests_length: usize,
        answers: *mut u64,
        answers_length: usize,
    ) -> usize;
}

/// Serves as many whole requests as `requests` and `answers` both hold; returns their number.
/// `installed` is the installed size, the bytes of system memory: any number. A DMA that would pass
/// and whose last byte is at or above it is refused with reason 17. The last word of `state`, after
/// those of the PEs, is the fence word.
#[allow(clippy::too_many_arguments)]
pub fn run(
    pes: u64,
    interrupt_count: u64,
    requester_count: u64,
    installed: u64,
    requesters: &[u16],
    entries: &[u64],
    memory: &[u64],
    peers: &[u64],
    interrupts: &mut [u64],
    windows: &[u64],
    segments: &[u16],
    state: &mut [u64],
    requests: &[u64],
    answers: &mut [u64],
) -> usize {
    // Each pointer and length is that of a slice, and the function asks nothing of its arguments.
    unsafe {
        celltimber_run(
            pes,
            interrupt_count,
            requester_count,
            installed,
            requesters.as_ptr(),
            requesters.len(),
            entries.as_ptr(),
            entries.len(),
            memory.as_ptr(),
            memory.len(),
            peers.as_ptr(),
            peers.len(),
            interrupts.as_mut_ptr(),
            interrupts.len(),
            windows.as_ptr(),
            windows.len(),
            segments.as_ptr(),
            segments.len(),
            state.as_mut_ptr(),
            state.len(),
            requests.as_ptr(),
            requests.len(),
            answers.as_mut_ptr(),
            answers.len(),
        )
    }
}

/// The same with a translation cache, and with edits of memory and invalidates among the requests. A
/// sequence starts with `invalidate_all`, in whatever words the cache is, and goes on over as many calls
/// as the caller likes; no call empties the cache by itself. Memory is written by edits alone through a
/// sequence. The answers are then those of `run` on memory as it is at each request.
#[allow(clippy::too_many_arguments)]
pub fn cached_run(
    pes: u64,
    interrupt_count: u64,
    requester_count: u64,
    installed: u64,
    requesters: &[u16],
    entries: &[u64],
    memory: &mut [u64],
    peers: &[u64],
    interrupts: &mut [u64],
    windows: &[u64],
    segments: &[u16],
    state: &mut [u64],
    cache: &mut [u64],
    requests: &[u64],
    answers: &mut [u64],
) -> usize {
    // Each pointer and length is that of a slice, and the function asks nothing of its arguments.
    unsafe {
        celltimber_cached_run(
            pes,
            interrupt_count,
            requester_count,
            installed,
            requesters.as_ptr(),
            requesters.len(),
            entries.as_ptr(),
            entries.len(),
            memory.as_mut_ptr(),
            memory.len(),
            peers.as_ptr(),
            peers.len(),
            interrupts.as_mut_ptr(),
            interrupts.len(),
            windows.as_ptr(),
            windows.len(),
            segments.as_ptr(),
            segments.len(),
            state.as_mut_ptr(),
            state.len(),
            cache.as_mut_ptr(),
            cache.len(),
            requests.as_ptr(),
            requests.len(),
            answers.as_mut_ptr(),
            answers.len(),
        )
    }
}

// ---- libisolation_tests.a ----

extern "C" {
    fn celltimber_owner(
        pes: u64,
        interrupt_count: u64,
        requester_count: u64,
        requesters: *const u16,
        requesters_length: usize,
        interrupts: *const u64,
        interrupts_length: usize,
        windows: *const u64,
        windows_length: usize,
        segments: *const u16,
        segments_length: usize,
        kind: u64,
        a: u64,
        b: u64,
        c: u64,
        d: u64,
        e: u64,
    ) -> u64;
    fn celltimber_member(group: *const u64, group_length: usize, number: u64) -> u64;
    fn celltimber_closed(
        pes: u64,
        peers: *const u64,
        peers_length: usize,
        group: *const u64,
        group_length: usize,
    ) -> u64;
    fn celltimber_covers(
        pes: u64,
        entries: *const u64,
        entries_length: usize,
        memory: *const u64,
        memory_length: usize,
        group: *const u64,
        group_length: usize,
        marks: *mut u64,
        marks_length: usize,
        tables: *mut u64,
        tables_length: usize,
        under: *mut u64,
        under_length: usize,
    ) -> u64;
    fn celltimber_seen(
        pes: u64,
        interrupts: *const u64,
        interrupts_length: usize,
        marks: *const u64,
        marks_length: usize,
        group: *const u64,
        group_length: usize,
        table: u64,
        index: usize,
    ) -> u64;
}

// In each call below, each pointer and length is that of a slice, and nothing is asked of the arguments.

/// The number of the PE that a request belongs to, or `NOBODY`. An invalidate is its PE's. An edit is
/// nobody's here: whether it is a group's is asked by `covers`, of memory as it is before the edit.
#[allow(clippy::too_many_arguments)]
pub fn owner(
    pes: u64,
    interrupt_count: u64,
    requester_count: u64,
    requesters: &[u16],
    interrupts: &[u64],
    windows: &[u64],
    segments: &[u16],
    request: &RequestWords,
) -> u64 {
    let [kind, a, b, c, d, e, ..] = *request;
    unsafe {
        celltimber_owner(
            pes,
            interrupt_count,
            requester_count,
            requesters.as_ptr(),
            requesters.len(),
            interrupts.as_ptr(),
            interrupts.len(),
            windows.as_ptr(),
            windows.len(),
            segments.as_ptr(),
            segments.len(),
            kind,
            a,
            b,
            c,
            d,
            e,
        )
    }
}

/// A test that the functions give as a number.
fn holds(flag: u64) -> bool {
    assert!(flag <= 1, "neither 1 nor 0");
    flag == 1
}

// A group is a bit vector: PE k is bit k mod 64 of word k div 64.

/// Whether the number is that of a member.
pub fn member(group: &[u64], number: u64) -> bool {
    holds(unsafe { celltimber_member(group.as_ptr(), group.len(), number) })
}

/// Whether no PE outside the group lists a member in its peer vector.
pub fn closed(pes: u64, peers: &[u64], group: &[u64]) -> bool {
    holds(unsafe {
        celltimber_closed(pes, peers.as_ptr(), peers.len(), group.as_ptr(), group.len())
    })
}

/// Marks exactly the memory words that a walk of a member reads: a mark is not 0. `tables` and `under`
/// are room to work in and become 0. False, with all three as they were, where N is above its limit or
/// one of the three has not the length of memory.
pub fn covers(
    pes: u64,
    entries: &[u64],
    memory: &[u64],
    group: &[u64],
    marks: &mut [u64],
    tables: &mut [u64],
    under: &mut [u64],
) -> bool {
    holds(unsafe {
        celltimber_covers(
            pes,
            entries.as_ptr(),
            entries.len(),
            memory.as_ptr(),
            memory.len(),
            group.as_ptr(),
            group.len(),
            marks.as_mut_ptr(),
            marks.len(),
            tables.as_mut_ptr(),
            tables.len(),
            under.as_mut_ptr(),
            under.len(),
        )
    })
}

/// The marks of `covers` in a list of their own; `None` where N is above its limit.
pub fn marks(pes: u64, entries: &[u64], memory: &[u64], group: &[u64]) -> Option<Vec<u64>> {
    let [mut marks, mut tables, mut under] = [(); 3].map(|()| vec![0; memory.len()]);
    covers(pes, entries, memory, group, &mut marks, &mut tables, &mut under).then_some(marks)
}

/// Whether word `index` of a table is public or the group's. The fence word is public.
pub fn seen(
    pes: u64,
    interrupts: &[u64],
    marks: &[u64],
    group: &[u64],
    table: u64,
    index: usize,
) -> bool {
    holds(unsafe {
        celltimber_seen(
            pes,
            interrupts.as_ptr(),
            interrupts.len(),
            marks.as_ptr(),
            marks.len(),
            group.as_ptr(),
            group.len(),
            table,
            index,
        )
    })
}
