// Case A of the profile, as host/example.c has it: a device reads 4 bytes at 0x3ABC through a page
// table of one level. docs/HOST.md says how to link it.

#[allow(dead_code)]
mod celltimber;

use celltimber::*;

fn main() {
    let (mut requesters, segments) = ([0; 8], [0; SEGMENT_COUNT]);
    let (mut entries, mut memory, peers) = ([0; 4 * ENTRY_WORDS], [0; 0x1000], [0; 4 * PEER_WORDS]);
    let (windows, mut state) = ([0; WINDOW_WORDS], [0; 4 * STATE_WORDS + FENCE_WORDS]);
    let request = dma(5, READ, 0x3ABC, 4, 0);
    let mut answer = [0; ANSWER_WORDS];

    // Requester 5 is PE 2. Its first record: a table at 0x2000, one level, table code 1 (512 words),
    // page code 1 (4 KiB).
    requesters[5] = 2;
    entries[2 * ENTRY_WORDS..][..RECORD_WORDS].copy_from_slice(&[0x2000, 1, 1, 1]);
    // Word 3 of the table: page 0x12345, reads and writes allowed.
    memory[0x2018 / 8] = 0x1234_5003;

    // 4 PEs, no interrupts, 8 requesters, 4 GiB of installed memory.
    run(
        4,
        0,
        8,
        1 << 32,
        &requesters,
        &entries,
        &memory,
        &peers,
        &mut [],
        &windows,
        &segments,
        &mut state,
        &request,
        &mut answer,
    );
    let [name, reason, value, words, pe, ..] = answer;
    println!("answer {name} reason {reason} value 0x{value:X} words {words} PE {pe}");
}
