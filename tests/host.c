/*
 * Every exported function, called from C by host/celltimber.h, on every kind of request. Guard words stand around every lent slice: after each call they and
 * every table that is not written have to be as before. Prints what each call gives and leaves; tests/host.rs prints the same lines from Rust.
 * Compiles as C99 and as C++.
 */
#include "celltimber.h"
#include <inttypes.h>
#include <stdio.h>
#include <stdlib.h>
#include <string.h>

enum { PES = 4, INTERRUPTS = 8, REQUESTERS = 8, MEMORY = 0x1000, GUARD = 8 };

/* The installed size ends after the 4 bytes that the first request reads. */
enum { INSTALLED = 0x12345AC0 };

#define LENGTH(array) (sizeof(array) / sizeof((array)[0]))

static const uint64_t requests[][CELLTIMBER_REQUEST_WORDS] = {
    /* DMA: one level, both directions; two levels; bypass */
    {CELLTIMBER_DMA, 5, CELLTIMBER_READ, 0x3ABC, 4, 0, 0, 0},
    {CELLTIMBER_DMA, 5, CELLTIMBER_WRITE, 0x3ABC, 4, 0xFFFFFFFF, 0, 0},
    {CELLTIMBER_DMA, 6, CELLTIMBER_WRITE, 0x403010, 4, 0, 0, 0},
    {CELLTIMBER_DMA, 5, CELLTIMBER_READ, 0x0800000001000000, 4096, 0, 0, 0},
    /* MSI: presented, held, ended twice; held by its priority, and released */
    {CELLTIMBER_DMA, 5, CELLTIMBER_WRITE, 0x1000000000000070, 4, 3, 0, 0},
    {CELLTIMBER_DMA, 5, CELLTIMBER_WRITE, 0xFFFF0070, 4, 0, 0, 0},
    {CELLTIMBER_END, 7, 0, 0, 0, 0, 0, 0},
    {CELLTIMBER_END, 7, 1, 2, 3, 4, 5, 6},
    {CELLTIMBER_PRIORITY, 7, CELLTIMBER_HOLDING, 0, 0, 0, 0, 0},
    {CELLTIMBER_DMA, 5, CELLTIMBER_WRITE, 0xFFFF0070, 4, 0, 0, 0},
    {CELLTIMBER_PRIORITY, 7, 6, 0, 0, 0, 0, 0},
    {CELLTIMBER_PRIORITY, 7, 256, 0, 0, 0, 0, 0},
    {CELLTIMBER_PRIORITY, 6, 5, 0, 0, 0, 0, 0},
    {CELLTIMBER_END, 8, 0, 0, 0, 0, 0, 0},
    /* loads and stores: M32, M64 whole and by segments; badly formed; no window; a segment that is no PE */
    {CELLTIMBER_LOAD, 0x100300010, 4, 0, 0, 0, 0, 0},
    {CELLTIMBER_STORE, 0x10000000008, 8, 0, 0, 0, 0, 0},
    {CELLTIMBER_LOAD, 0x20000200000, 2, 0, 0, 0, 0, 0},
    {CELLTIMBER_LOAD, 0x100300011, 4, 0, 0, 0, 0, 0},
    {CELLTIMBER_STORE, 0, 1, 0, 0, 0, 0, 0},
    {CELLTIMBER_LOAD, 0x2000C800000, 1, 0, 0, 0, 0, 0},
    /* refused, nothing changes */
    {CELLTIMBER_DMA, 5, CELLTIMBER_READ, 0x3000, 0, 0, 0, 0},
    {CELLTIMBER_DMA, 7, CELLTIMBER_READ, 0x3000, 4, 0, 0, 0},
    {CELLTIMBER_ERROR, 8, 0, 0, 0, 0, 0, 0},
    {CELLTIMBER_CLEAR, 4, CELLTIMBER_RECORD, 0, 0, 0, 0, 0},
    /* a class that is not served freezes PE 2, and not its peer, PE 3 */
    {CELLTIMBER_DMA, 5, CELLTIMBER_READ, 0x2000000000000000, 1, 0, 0, 0},
    {CELLTIMBER_DMA, 5, CELLTIMBER_READ, 0x3ABC, 4, 0, 0, 0},
    {CELLTIMBER_LOAD, 0x20000200000, 2, 0, 0, 0, 0, 0},
    {CELLTIMBER_STORE, 0x10000000008, 8, 0, 0, 0, 0, 0},
    /* an error message of PE 2 freezes its peer */
    {CELLTIMBER_ERROR, 5, 0, 0, 0, 0, 0, 0},
    {CELLTIMBER_STORE, 0x10000000008, 8, 0, 0, 0, 0, 0},
    {CELLTIMBER_CLEAR, 2, CELLTIMBER_MMIO_BIT, 0, 0, 0, 0, 0},
    {CELLTIMBER_CLEAR, 3, CELLTIMBER_DMA_BIT, 0, 0, 0, 0, 0},
    {CELLTIMBER_CLEAR, 2, CELLTIMBER_RECORD, 0, 0, 0, 0, 0},
    /* the other refusals that freeze, each after a release */
    {CELLTIMBER_CLEAR, 2, CELLTIMBER_DMA_BIT, 0, 0, 0, 0, 0},
    {CELLTIMBER_DMA, 5, CELLTIMBER_READ, 0x200000, 1, 0, 0, 0},
    {CELLTIMBER_CLEAR, 2, CELLTIMBER_DMA_BIT, 0, 0, 0, 0, 0},
    {CELLTIMBER_DMA, 5, CELLTIMBER_READ, 0x4000, 1, 0, 0, 0},
    {CELLTIMBER_CLEAR, 2, CELLTIMBER_DMA_BIT, 0, 0, 0, 0, 0},
    {CELLTIMBER_DMA, 5, CELLTIMBER_READ, 0xFFFF0070, 4, 0, 0, 0},
    {CELLTIMBER_DMA, 0, CELLTIMBER_READ, 0, 1, 0, 0, 0},
    {CELLTIMBER_CLEAR, 3, CELLTIMBER_DMA_BIT, 0, 0, 0, 0, 0},
    {CELLTIMBER_CLEAR, 3, CELLTIMBER_RECORD, 0, 0, 0, 0, 0},
    {CELLTIMBER_DMA, 3, CELLTIMBER_READ, 0, 1, 0, 0, 0},
    /* the first byte that is not installed */
    {CELLTIMBER_CLEAR, 2, CELLTIMBER_DMA_BIT, 0, 0, 0, 0, 0},
    {CELLTIMBER_CLEAR, 2, CELLTIMBER_RECORD, 0, 0, 0, 0, 0},
    {CELLTIMBER_DMA, 5, CELLTIMBER_READ, 0x3ABC, 5, 0, 0, 0},
    /* an error message freezes PE 1; its peer, PE 2, has a record already */
    {CELLTIMBER_ERROR, 6, 0, 0, 0, 0, 0, 0},
    {CELLTIMBER_CLEAR, 1, CELLTIMBER_MMIO_BIT, 0, 0, 0, 0, 0},
    /* a fence clear without a fence, and a fatal message of an unknown requester; one of PE 1, whose DMA bit is set, fences the bridge */
    {CELLTIMBER_FENCE_CLEAR, 1, 2, 3, 4, 5, 6, 7},
    {CELLTIMBER_FATAL, 7, 0, 0, 0, 0, 0, 0},
    {CELLTIMBER_FATAL, 6, 1, 2, 3, 4, 5, 6},
    {CELLTIMBER_DMA, 5, CELLTIMBER_READ, 0x3ABC, 4, 0, 0, 0},
    {CELLTIMBER_DMA, 7, CELLTIMBER_READ, 0x3ABC, 4, 0, 0, 0},
    {CELLTIMBER_DMA, 5, CELLTIMBER_READ, 0x3ABC, 0, 0, 0, 0},
    {CELLTIMBER_DMA, 5, CELLTIMBER_WRITE, 0xFFFF0070, 4, 0, 0, 0},
    {CELLTIMBER_LOAD, 0x100300010, 4, 0, 0, 0, 0, 0},
    {CELLTIMBER_LOAD, 0, 8, 0, 0, 0, 0, 0},
    {CELLTIMBER_STORE, 0x10000000008, 8, 0, 0, 0, 0, 0},
    {CELLTIMBER_ERROR, 5, 0, 0, 0, 0, 0, 0},
    {CELLTIMBER_PRIORITY, 7, 5, 0, 0, 0, 0, 0},
    {CELLTIMBER_FATAL, 5, 0, 0, 0, 0, 0, 0},
    /* the fence is cleared, and set again at the end */
    {CELLTIMBER_FENCE_CLEAR, 0, 0, 0, 0, 0, 0, 0},
    {CELLTIMBER_LOAD, 0x100300010, 4, 0, 0, 0, 0, 0},
    {CELLTIMBER_FATAL, 0, 0, 0, 0, 0, 0, 0},
    /* words that name no request, those of a bridge with a cache among them */
    {CELLTIMBER_EDIT, 0x403, 0, 0, 0, 0, 0, 0},
    {CELLTIMBER_INVALIDATE, CELLTIMBER_SCOPE_ALL, 0, 0, 0, 0, 0, 0},
    {CELLTIMBER_INVALIDATE + 1, 5, 0, 0, 0, 0, 0, 0},
    {CELLTIMBER_UNNAMED, 0, 0, 0, 0, 0, 0, 0},
    {CELLTIMBER_DMA, 5, CELLTIMBER_WRITE + 1, 0x3ABC, 4, 0, 0, 0},
    {CELLTIMBER_DMA, 5, CELLTIMBER_READ, 0x3ABC, 4, 0x100000000, 0, 0},
    {CELLTIMBER_CLEAR, 2, CELLTIMBER_RECORD + 1, 0, 0, 0, 0, 0},
};

enum { COUNT = LENGTH(requests) };

/* Of the bridge with a cache; a sequence from the first on. */
static const uint64_t cached_requests[][CELLTIMBER_REQUEST_WORDS] = {
    {CELLTIMBER_INVALIDATE, CELLTIMBER_SCOPE_ALL, 9, 9, 9, 9, 9, 9},
    /* a miss and a hit over one level, and over two; a bypass; a hit that is not installed */
    {CELLTIMBER_DMA, 5, CELLTIMBER_READ, 0x3ABC, 4, 0, 0, 0},
    {CELLTIMBER_DMA, 5, CELLTIMBER_WRITE, 0x3000, 1, 0, 0, 0},
    {CELLTIMBER_DMA, 6, CELLTIMBER_WRITE, 0x403010, 4, 0, 0, 0},
    {CELLTIMBER_DMA, 6, CELLTIMBER_READ, 0x403FFF, 1, 0, 0, 0},
    {CELLTIMBER_DMA, 5, CELLTIMBER_READ, 0x0800000001000000, 4096, 0, 0, 0},
    {CELLTIMBER_DMA, 5, CELLTIMBER_READ, 0x3AC0, 1, 0, 0, 0},
    {CELLTIMBER_CLEAR, 2, CELLTIMBER_DMA_BIT, 0, 0, 0, 0, 0},
    /* an edit of a last word drops its page: reads are allowed then, and a write is walked to 8 */
    {CELLTIMBER_EDIT, 0x2018 / 8, 0x12345001, 9, 9, 9, 9, 9},
    {CELLTIMBER_DMA, 5, CELLTIMBER_READ, 0x3ABC, 4, 0, 0, 0},
    {CELLTIMBER_DMA, 5, CELLTIMBER_WRITE, 0x3ABC, 4, 0, 0, 0},
    {CELLTIMBER_CLEAR, 2, CELLTIMBER_DMA_BIT, 0, 0, 0, 0, 0},
    /* an edit of an upper word drops the page too, and so does one that writes the word that is there */
    {CELLTIMBER_EDIT, 0x2010 / 8, 0x6003, 0, 0, 0, 0, 0},
    {CELLTIMBER_EDIT, 0x6018 / 8, 0xA003, 0, 0, 0, 0, 0},
    {CELLTIMBER_DMA, 6, CELLTIMBER_WRITE, 0x403010, 4, 0, 0, 0},
    {CELLTIMBER_EDIT, 0x2010 / 8, 0x6003, 0, 0, 0, 0, 0},
    {CELLTIMBER_DMA, 6, CELLTIMBER_READ, 0x403010, 4, 0, 0, 0},
    /* edits of no word of memory; a PE that is not there, and a scope that is not there */
    {CELLTIMBER_EDIT, MEMORY, 1, 0, 0, 0, 0, 0},
    {CELLTIMBER_EDIT, UINT64_MAX, 1, 0, 0, 0, 0, 0},
    {CELLTIMBER_INVALIDATE, CELLTIMBER_SCOPE_PE, PES, 0, 0, 0, 0, 0},
    {CELLTIMBER_INVALIDATE, CELLTIMBER_SCOPE_ADDRESS, PES, 0x3ABC, 0, 0, 0, 0},
    {CELLTIMBER_INVALIDATE, CELLTIMBER_SCOPE_ADDRESS + 1, PES, 0x3ABC, 0, 0, 0, 0},
    {CELLTIMBER_INVALIDATE + 1, 0, 0, 0, 0, 0, 0, 0},
    {CELLTIMBER_UNNAMED, 0, 0, 0, 0, 0, 0, 0},
    /* by address: a page that is not held, and on a fenced bridge one that is, with bits above 59; by PE, with nothing to drop the second time */
    {CELLTIMBER_INVALIDATE, CELLTIMBER_SCOPE_ADDRESS, 2, 0x4000, 9, 9, 9, 9},
    {CELLTIMBER_FATAL, 0, 0, 0, 0, 0, 0, 0},
    {CELLTIMBER_INVALIDATE, CELLTIMBER_SCOPE_ADDRESS, 2, 0xF000000000003ABC, 9, 9, 9, 9},
    {CELLTIMBER_DMA, 6, CELLTIMBER_READ, 0x403010, 4, 0, 0, 0},
    {CELLTIMBER_INVALIDATE, CELLTIMBER_SCOPE_PE, 1, 9, 9, 9, 9, 9},
    {CELLTIMBER_INVALIDATE, CELLTIMBER_SCOPE_PE, 1, 0, 0, 0, 0, 0},
    {CELLTIMBER_EDIT, 0x2018 / 8, 0x12345003, 0, 0, 0, 0, 0},
    {CELLTIMBER_FENCE_CLEAR, 0, 0, 0, 0, 0, 0, 0},
    /* each other kind */
    {CELLTIMBER_DMA, 5, CELLTIMBER_READ, 0x3ABC, 4, 0, 0, 0},
    {CELLTIMBER_DMA, 5, CELLTIMBER_WRITE, 0xFFFF0070, 4, 0, 0, 0},
    {CELLTIMBER_END, 7, 0, 0, 0, 0, 0, 0},
    {CELLTIMBER_PRIORITY, 7, 6, 0, 0, 0, 0, 0},
    {CELLTIMBER_LOAD, 0x100300010, 4, 0, 0, 0, 0, 0},
    {CELLTIMBER_STORE, 0x10000000008, 8, 0, 0, 0, 0, 0},
    {CELLTIMBER_ERROR, 5, 0, 0, 0, 0, 0, 0},
    {CELLTIMBER_DMA, 5, CELLTIMBER_READ, 0x3ABC, 4, 0, 0, 0},
};

enum { CACHED_COUNT = LENGTH(cached_requests) };

/* All that is lent, with guard words between. */
struct lent {
    uint64_t guard_0[GUARD];
    uint16_t requesters[REQUESTERS];
    uint64_t guard_1[GUARD];
    uint64_t entries[CELLTIMBER_ENTRY_WORDS * PES];
    uint64_t guard_2[GUARD];
    uint64_t memory[MEMORY];
    uint64_t guard_3[GUARD];
    uint64_t peers[CELLTIMBER_PEER_WORDS * PES];
    uint64_t guard_4[GUARD];
    uint64_t interrupts[CELLTIMBER_INTERRUPT_WORDS * INTERRUPTS];
    uint64_t guard_5[GUARD];
    uint64_t windows[CELLTIMBER_WINDOW_WORDS];
    uint64_t guard_6[GUARD];
    uint16_t segments[CELLTIMBER_SEGMENT_COUNT];
    uint64_t guard_7[GUARD];
    uint64_t state[CELLTIMBER_STATE_WORDS * PES + CELLTIMBER_FENCE_WORDS];
    uint64_t guard_8[GUARD];
    uint64_t requests[CELLTIMBER_REQUEST_WORDS * COUNT];
    uint64_t guard_9[GUARD];
    uint64_t answers[CELLTIMBER_ANSWER_WORDS * COUNT];
    uint64_t guard_10[GUARD];
    uint64_t marks[MEMORY];
    uint64_t guard_11[GUARD];
    uint64_t tables[MEMORY];
    uint64_t guard_12[GUARD];
    uint64_t under[MEMORY];
    uint64_t guard_13[GUARD];
    uint64_t group[CELLTIMBER_PEER_WORDS];
    uint64_t guard_14[GUARD];
    uint64_t cache[CELLTIMBER_CACHE_WORDS];
    uint64_t guard_15[GUARD];
};

static struct lent lent, before;

static void fail(const char *what)
{
    printf("FAIL  %s\n", what);
    exit(1);
}

/* Four words of a table. */
static void put(uint64_t *to, uint64_t a, uint64_t b, uint64_t c, uint64_t d)
{
    to[0] = a, to[1] = b, to[2] = c, to[3] = d;
}

/* The tables at the start. Guards and answer words have bytes that no answer has. */
static void start(void)
{
    static const uint16_t requester_pes[REQUESTERS] = {0, 1, 2, 3, 9, 2, 1, 4};
    memset(&lent, 0x5A, sizeof lent);
    memcpy(lent.requesters, requester_pes, sizeof requester_pes);
    memset(lent.entries, 0, sizeof lent.entries);
    memset(lent.memory, 0, sizeof lent.memory);
    memset(lent.peers, 0, sizeof lent.peers);
    memset(lent.interrupts, 0, sizeof lent.interrupts);
    memset(lent.windows, 0, sizeof lent.windows);
    memset(lent.segments, 0, sizeof lent.segments);
    memset(lent.state, 0, sizeof lent.state);
    memset(lent.group, 0, sizeof lent.group);
    put(&lent.entries[1 * CELLTIMBER_ENTRY_WORDS], 0x2000, 2, 1, 1);
    put(&lent.entries[2 * CELLTIMBER_ENTRY_WORDS], 0x2000, 1, 1, 1);
    put(&lent.entries[2 * CELLTIMBER_ENTRY_WORDS + CELLTIMBER_RECORD_WORDS], 1, 2, 1, 0);
    put(&lent.entries[3 * CELLTIMBER_ENTRY_WORDS], 0x8000, 1, 1, 1);
    lent.memory[0x2010 / 8] = 0x5001;
    lent.memory[0x2018 / 8] = 0x12345003;
    lent.memory[0x5018 / 8] = 0x9003;
    lent.peers[1 * CELLTIMBER_PEER_WORDS] = 1 << 2;
    lent.peers[2 * CELLTIMBER_PEER_WORDS] = 1 << 3;
    put(&lent.interrupts[6 * CELLTIMBER_INTERRUPT_WORDS], 2, 1 << 24, 5, 0);
    put(&lent.interrupts[7 * CELLTIMBER_INTERRUPT_WORDS], 2, 0x42, 5, 0);
    put(lent.windows, 0x100000000, 0x10000000, 0x80000000, 0);
    put(&lent.windows[CELLTIMBER_M32_WORDS], 0x10000000000, 0x10000000, 1, 3);
    put(&lent.windows[CELLTIMBER_M32_WORDS + CELLTIMBER_M64_WORDS], 0x20000000000, 0x10000000, 2, 9);
    lent.segments[3] = 1;
    lent.state[3 * CELLTIMBER_STATE_WORDS] = 0xF0;
    lent.state[PES * CELLTIMBER_STATE_WORDS] = 0xE0;
    memcpy(lent.requests, requests, sizeof requests);
}

static void print(const char *name, const uint64_t *words, size_t count)
{
    size_t k;
    printf("%s", name);
    for (k = 0; k < count; k++)
        printf(" %" PRIx64, words[k]);
    printf("\n");
}

/* How many words each table is lent fewer than it has. */
static size_t cut[CELLTIMBER_TABLE_STATE + 1];

/* After a call on `lent` as `before` has it: nothing but state, interrupts and the answers from answer `first` on has changed. */
static size_t check(size_t first, size_t served)
{
    size_t at = CELLTIMBER_ANSWER_WORDS * first;
    memcpy(before.interrupts, lent.interrupts, sizeof lent.interrupts);
    memcpy(before.state, lent.state, sizeof lent.state);
    memcpy(&before.answers[at], &lent.answers[at], CELLTIMBER_ANSWER_WORDS * served * sizeof lent.answers[0]);
    if (memcmp(&before, &lent, sizeof lent) != 0)
        fail("a word that is not to be written has changed");
    return served;
}

/* Serves requests from request `first` on: so many words of them, with room for so many words of answers. */
static size_t run(size_t first, size_t request_words, size_t answer_words)
{
    before = lent;
    return check(first,
        celltimber_run(PES, INTERRUPTS, REQUESTERS, INSTALLED, lent.requesters, LENGTH(lent.requesters) - cut[CELLTIMBER_TABLE_REQUESTERS], lent.entries,
            LENGTH(lent.entries) - cut[CELLTIMBER_TABLE_ENTRIES], lent.memory, LENGTH(lent.memory) - cut[CELLTIMBER_TABLE_MEMORY], lent.peers,
            LENGTH(lent.peers) - cut[CELLTIMBER_TABLE_PEERS], lent.interrupts, LENGTH(lent.interrupts) - cut[CELLTIMBER_TABLE_INTERRUPTS], lent.windows,
            LENGTH(lent.windows) - cut[CELLTIMBER_TABLE_WINDOWS], lent.segments, LENGTH(lent.segments) - cut[CELLTIMBER_TABLE_SEGMENTS], lent.state,
            LENGTH(lent.state) - cut[CELLTIMBER_TABLE_STATE], &lent.requests[CELLTIMBER_REQUEST_WORDS * first], request_words,
            &lent.answers[CELLTIMBER_ANSWER_WORDS * first], answer_words));
}

/* The same with a cache that is lent so many words of, after which memory and the cache may have changed too. */
static size_t cached_run(size_t first, size_t request_words, size_t cache_words)
{
    size_t served;
    before = lent;
    served = celltimber_cached_run(PES, INTERRUPTS, REQUESTERS, INSTALLED, lent.requesters, LENGTH(lent.requesters), lent.entries, LENGTH(lent.entries),
        lent.memory, LENGTH(lent.memory), lent.peers, LENGTH(lent.peers), lent.interrupts, LENGTH(lent.interrupts), lent.windows, LENGTH(lent.windows),
        lent.segments, LENGTH(lent.segments), lent.state, LENGTH(lent.state), lent.cache, cache_words, &lent.requests[CELLTIMBER_REQUEST_WORDS * first],
        request_words, &lent.answers[CELLTIMBER_ANSWER_WORDS * first], request_words);
    memcpy(before.memory, lent.memory, sizeof lent.memory);
    memcpy(before.cache, lent.cache, sizeof lent.cache);
    return check(first, served);
}

/* The requests one to a call; then all in one call, with the same answers and words left. */
static void kinds(void)
{
    static struct lent after;
    const uint64_t *record = &lent.state[3 * CELLTIMBER_STATE_WORDS + 1], *above = &lent.state[2 * CELLTIMBER_STATE_WORDS + 1];
    size_t k;
    start();
    for (k = 0; k < COUNT; k++) {
        const uint64_t *answer = &lent.answers[CELLTIMBER_ANSWER_WORDS * k];
        int walked;
        if (run(k, CELLTIMBER_REQUEST_WORDS, CELLTIMBER_ANSWER_WORDS) != 1)
            fail("one request was not served");
        walked = answer[CELLTIMBER_AT_REASON] == CELLTIMBER_REASON_TABLE_WORD || answer[CELLTIMBER_AT_REASON] == CELLTIMBER_REASON_OUTSIDE_MEMORY;
        if (walked != (answer[CELLTIMBER_AT_WORD] != 0))
            fail("the word that a walk stopped at");
        print("request", requests[k], CELLTIMBER_REQUEST_WORDS);
        print("answer", answer, CELLTIMBER_ANSWER_WORDS);
        print("state", lent.state, LENGTH(lent.state));
        print("interrupts", lent.interrupts, LENGTH(lent.interrupts));
    }
    if (lent.state[0] != (CELLTIMBER_MMIO_STOP | CELLTIMBER_DMA_STOP) || lent.state[CELLTIMBER_STATE_WORDS] != CELLTIMBER_DMA_STOP)
        fail("the stop bits of PE 0, which is frozen, and of PE 1, whose MMIO bit is cleared");
    if (record[0] != CELLTIMBER_REASON_OUTSIDE_MEMORY || record[1] != 0 || record[2] != 0x8000)
        fail("the error record of PE 3, whose table is past memory");
    if (above[0] != CELLTIMBER_REASON_ABOVE_INSTALLED || above[1] != 0x3ABC || above[2] != 0)
        fail("the error record of PE 2, which asked for a byte that is not installed");
    if (lent.state[PES * CELLTIMBER_STATE_WORDS] != (0xE0 | CELLTIMBER_FENCE))
        fail("the fence word, which a fatal message has set");
    after = lent;
    start();
    if (run(0, LENGTH(lent.requests), LENGTH(lent.answers)) != COUNT || memcmp(&after, &lent, sizeof lent) != 0)
        fail("all requests in one call");
}

static void cached_start(void)
{
    start();
    memcpy(lent.requests, cached_requests, sizeof cached_requests);
}

/* A bridge with a cache, in the same two ways: of the cache the slots that are full, of memory the words that edits write. */
static void cached_kinds(void)
{
    static struct lent after;
    size_t k, slot;
    cached_start();
    for (k = 0; k < CACHED_COUNT; k++) {
        if (cached_run(k, CELLTIMBER_REQUEST_WORDS, CELLTIMBER_CACHE_WORDS) != 1)
            fail("one request was not served with a cache");
        print("cached request", cached_requests[k], CELLTIMBER_REQUEST_WORDS);
        print("cached answer", &lent.answers[CELLTIMBER_ANSWER_WORDS * k], CELLTIMBER_ANSWER_WORDS);
        print("cached state", lent.state, LENGTH(lent.state));
        for (slot = 0; slot < CELLTIMBER_CACHE_WORDS; slot += CELLTIMBER_SLOT_WORDS)
            if (lent.cache[slot] != 0) {
                printf("slot %zu:", slot / CELLTIMBER_SLOT_WORDS);
                print("", &lent.cache[slot], CELLTIMBER_SLOT_WORDS);
            }
        print("upper and last word", &lent.memory[0x2010 / 8], 2);
        print("last word", &lent.memory[0x6018 / 8], 1);
    }
    after = lent;
    cached_start();
    if (cached_run(0, CELLTIMBER_REQUEST_WORDS * CACHED_COUNT, CELLTIMBER_CACHE_WORDS) != CACHED_COUNT || memcmp(&after, &lent, sizeof lent) != 0)
        fail("all requests in one call with a cache");
    /* a cache that is too short */
    for (k = 0; k < 2; k++) {
        cached_run(0, CELLTIMBER_REQUEST_WORDS, k * (CELLTIMBER_CACHE_WORDS - 1));
        print("cached, too short", lent.answers, CELLTIMBER_ANSWER_WORDS);
    }
    if (memcmp(after.cache, lent.cache, sizeof lent.cache) != 0 || memcmp(after.memory, lent.memory, sizeof lent.memory) != 0)
        fail("a cache that is too short is written, or memory");
}

/* Lists that end in part of an answer or of a request; then tables that lack their last word. */
static void lengths(void)
{
    size_t k;
    start();
    for (k = 0; k <= 3 * CELLTIMBER_ANSWER_WORDS; k++) {
        size_t by_answers = run(0, 3 * CELLTIMBER_REQUEST_WORDS, k);
        size_t by_requests = run(0, k, 3 * CELLTIMBER_ANSWER_WORDS);
        printf("served %zu %zu\n", by_answers, by_requests);
    }
    for (k = 0; k < LENGTH(cut); k++) {
        start();
        cut[k] = 1;
        run(0, CELLTIMBER_REQUEST_WORDS, CELLTIMBER_ANSWER_WORDS);
        cut[k] = 0;
        print("one word short", lent.answers, CELLTIMBER_ANSWER_WORDS);
    }
}

/* Null pointers with length 0, and slices that are only read and overlap. */
static void pointers(void)
{
    static const uint64_t sizes[] = {INSTALLED, UINT64_MAX, 0};
    uint64_t *m = lent.memory;
    size_t k;
    start();
    before = lent;
    printf("served %zu\n",
        check(0, celltimber_run(PES, 0, 1, INSTALLED, NULL, 0, NULL, 0, NULL, 0, NULL, 0, NULL, 0, NULL, 0, NULL, 0, NULL, 0, NULL, 0, NULL, 0)));
    check(0,
        celltimber_run(PES, 0, 1, INSTALLED, NULL, 0, NULL, 0, NULL, 0, NULL, 0, NULL, 0, NULL, 0, NULL, 0, NULL, 0, lent.requests,
            CELLTIMBER_REQUEST_WORDS, lent.answers, CELLTIMBER_ANSWER_WORDS));
    print("no tables", lent.answers, CELLTIMBER_ANSWER_WORDS);
    printf("cached, served %zu\n",
        check(0,
            celltimber_cached_run(PES, 0, 1, INSTALLED, NULL, 0, NULL, 0, NULL, 0, NULL, 0, NULL, 0, NULL, 0, NULL, 0, NULL, 0, NULL, 0, NULL, 0, NULL, 0)));
    check(0,
        celltimber_cached_run(PES, 0, 1, INSTALLED, NULL, 0, NULL, 0, NULL, 0, NULL, 0, NULL, 0, NULL, 0, NULL, 0, NULL, 0, NULL, 0, lent.requests,
            CELLTIMBER_REQUEST_WORDS, lent.answers, CELLTIMBER_ANSWER_WORDS));
    print("cached, no tables", lent.answers, CELLTIMBER_ANSWER_WORDS);
    /* no memory and no interrupts is a good length of both: a bypass passes, under the largest installed size too, and under 0 it does not */
    for (k = 0; k < LENGTH(sizes); k++) {
        check(3,
            celltimber_run(PES, 0, REQUESTERS, sizes[k], lent.requesters, LENGTH(lent.requesters), lent.entries, LENGTH(lent.entries), NULL, 0, lent.peers,
                LENGTH(lent.peers), NULL, 0, lent.windows, LENGTH(lent.windows), lent.segments, LENGTH(lent.segments), lent.state, LENGTH(lent.state),
                &lent.requests[3 * CELLTIMBER_REQUEST_WORDS], CELLTIMBER_REQUEST_WORDS, &lent.answers[3 * CELLTIMBER_ANSWER_WORDS],
                CELLTIMBER_ANSWER_WORDS));
        print("no memory", &lent.answers[3 * CELLTIMBER_ANSWER_WORDS], CELLTIMBER_ANSWER_WORDS);
    }
    /* entries, peers, windows and the request are parts of memory */
    start();
    memcpy(&m[0x800], lent.entries, sizeof lent.entries);
    memcpy(&m[0x900], lent.peers, sizeof lent.peers);
    memcpy(&m[0xC00], lent.windows, sizeof lent.windows);
    memcpy(&m[0xD00], lent.requests, CELLTIMBER_REQUEST_WORDS * sizeof m[0]);
    before = lent;
    check(0,
        celltimber_run(PES, INTERRUPTS, REQUESTERS, INSTALLED, lent.requesters, LENGTH(lent.requesters), &m[0x800], LENGTH(lent.entries), m,
            LENGTH(lent.memory), &m[0x900], LENGTH(lent.peers), lent.interrupts, LENGTH(lent.interrupts), &m[0xC00], LENGTH(lent.windows), lent.segments,
            LENGTH(lent.segments), lent.state, LENGTH(lent.state), &m[0xD00], CELLTIMBER_REQUEST_WORDS, lent.answers, CELLTIMBER_ANSWER_WORDS));
    print("overlapping", lent.answers, CELLTIMBER_ANSWER_WORDS);
}

static uint64_t covers(uint64_t pes, size_t marks_length)
{
    return celltimber_covers(pes, lent.entries, LENGTH(lent.entries), lent.memory, LENGTH(lent.memory), lent.group, LENGTH(lent.group), lent.marks,
        marks_length, lent.tables, LENGTH(lent.tables), lent.under, LENGTH(lent.under));
}

/* The functions of libisolation_tests.a. celltimber_covers writes marks, tables and under, the others nothing. */
static void groups(void)
{
    static const uint64_t members[] = {0x6, 0xE, 0xC, 0x8, 0x2, 0x0};
    static const uint64_t numbers[] = {0, 1, 2, 3, 63, 64, 255, 256, CELLTIMBER_NOBODY};
    size_t k, table, index;
    start();
    before = lent;
    for (k = 0; k < COUNT; k++) {
        const uint64_t *q = requests[k];
        printf("owner %" PRIu64 "\n",
            celltimber_owner(PES, INTERRUPTS, REQUESTERS, lent.requesters, LENGTH(lent.requesters), lent.interrupts, LENGTH(lent.interrupts), lent.windows,
                LENGTH(lent.windows), lent.segments, LENGTH(lent.segments), q[0], q[1], q[2], q[3], q[4], q[5]));
    }
    for (k = 0; k < LENGTH(members); k++) {
        lent.group[0] = members[k];
        printf("group %" PRIx64 ": closed %" PRIu64 ", covers %" PRIu64, members[k],
            celltimber_closed(PES, lent.peers, LENGTH(lent.peers), lent.group, LENGTH(lent.group)), covers(PES, LENGTH(lent.marks)));
        for (index = 0; index < MEMORY; index++)
            if (lent.tables[index] != 0 || lent.under[index] != 0)
                fail("the lists that celltimber_covers is lent to work in");
        printf(", too many PEs %" PRIu64 ", a mark short %" PRIu64 "\nmarks", covers(CELLTIMBER_MOST_PES + 1, LENGTH(lent.marks)),
            covers(PES, LENGTH(lent.marks) - 1));
        for (index = 0; index < LENGTH(lent.marks); index++)
            if (lent.marks[index] != 0)
                printf(" %zx", index);
        printf("\nmembers");
        for (index = 0; index < LENGTH(numbers); index++)
            printf(" %" PRIu64, celltimber_member(lent.group, LENGTH(lent.group), numbers[index]));
        printf("\nseen");
        /* 64 words of each table, those of memory from 0x3E0 on, as one number */
        for (table = CELLTIMBER_TABLE_REQUESTERS; table <= CELLTIMBER_TABLE_STATE; table++) {
            size_t first = table == CELLTIMBER_TABLE_MEMORY ? 0x3E0 : 0;
            uint64_t seen = 0;
            for (index = 0; index < 64; index++)
                seen |= celltimber_seen(PES, lent.interrupts, LENGTH(lent.interrupts), lent.marks, LENGTH(lent.marks), lent.group, LENGTH(lent.group), table,
                            first + index)
                    << index;
            printf(" %" PRIx64, seen);
        }
        printf("\n");
    }
    lent.group[0] = 0;
    memcpy(lent.marks, before.marks, sizeof lent.marks);
    memcpy(lent.tables, before.tables, sizeof lent.tables);
    memcpy(lent.under, before.under, sizeof lent.under);
    if (memcmp(&before, &lent, sizeof lent) != 0)
        fail("a function of libisolation_tests.a has written a word");
    printf("no group: member %" PRIu64 ", closed %" PRIu64 "\n", celltimber_member(NULL, 0, 1),
        celltimber_closed(PES, lent.peers, LENGTH(lent.peers), NULL, 0));
}

int main(void)
{
    kinds();
    cached_kinds();
    lengths();
    pointers();
    groups();
    return 0;
}
