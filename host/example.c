/* Case A of the profile: a device reads 4 bytes at 0x3ABC through a page table of one level. docs/HOST.md says how to link it. */
#include "celltimber.h"
#include <inttypes.h>
#include <stdio.h>

#define LENGTH(array) (sizeof(array) / sizeof((array)[0]))

int main(void)
{
    static uint16_t requesters[8], segments[CELLTIMBER_SEGMENT_COUNT];
    static uint64_t entries[4 * CELLTIMBER_ENTRY_WORDS], memory[0x1000], peers[4 * CELLTIMBER_PEER_WORDS];
    static uint64_t windows[CELLTIMBER_WINDOW_WORDS], state[4 * CELLTIMBER_STATE_WORDS + CELLTIMBER_FENCE_WORDS];
    const uint64_t request[CELLTIMBER_REQUEST_WORDS] = {CELLTIMBER_DMA, 5, CELLTIMBER_READ, 0x3ABC, 4, 0};
    uint64_t answer[CELLTIMBER_ANSWER_WORDS], *record = &entries[2 * CELLTIMBER_ENTRY_WORDS]; /* the first record of PE 2 */

    requesters[5] = 2;               /* requester 5 is PE 2 */
    record[0] = 0x2000;              /* its table is at 0x2000 */
    record[1] = 1;                   /* one level */
    record[2] = 1;                   /* table code 1: 512 words */
    record[3] = 1;                   /* page code 1: 4 KiB */
    memory[0x2018 / 8] = 0x12345003; /* word 3 of the table: page 0x12345, reads and writes allowed */

    /* 4 PEs, no interrupts, 8 requesters, 4 GiB of installed memory */
    if (celltimber_run(4, 0, 8, 0x100000000, requesters, LENGTH(requesters), entries, LENGTH(entries), memory, LENGTH(memory), peers, LENGTH(peers), NULL, 0,
            windows, LENGTH(windows), segments, LENGTH(segments), state, LENGTH(state), request, LENGTH(request), answer, LENGTH(answer)) != 1)
        return 1;
    printf("answer %" PRIu64 " reason %" PRIu64 " value 0x%" PRIX64 " words %" PRIu64 " PE %" PRIu64 "\n", answer[CELLTIMBER_AT_NAME],
        answer[CELLTIMBER_AT_REASON], answer[CELLTIMBER_AT_VALUE], answer[CELLTIMBER_AT_WORDS], answer[CELLTIMBER_AT_PE]);
    return answer[CELLTIMBER_AT_NAME] == CELLTIMBER_PASS ? 0 : 1;
}
