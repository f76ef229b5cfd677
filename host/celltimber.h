/*
 * Celltimber: the address handling of an emulated PCI host bridge, as C and C++ call it. docs/HOST.md has every table word by word, how to link, and examples.
 *
 * libbridge.a            celltimber_run: serves requests; celltimber_cached_run: the same with a translation cache, edits of memory and invalidates.
 * libisolation_tests.a   celltimber_owner, celltimber_member, celltimber_closed, celltimber_covers, celltimber_seen: say whom a request belongs to,
 *                        and whether the premises of isolation hold of given tables.
 *
 * Arguments. A slice is two arguments: a pointer to its first element, and right after it its length, which counts elements and not bytes. N (PEs),
 * M (interrupts) and R (requesters) come first, of celltimber_run and celltimber_cached_run then the installed size; then the tables.
 *
 * Proved, for every number, every length and every word: the call ends, reads and writes inside the slices alone, and its result and each word that it
 * leaves are those of the definition. Nothing has to be checked before a call: tables of a wrong length are answered with reason 1, a badly formed request
 * and words that name no request with reason 2.
 *
 * What the caller holds to, and no function can test:
 * - A slice is as long as its length says, and is there until the call returns. Where the length is 0 the pointer is not used: it may be NULL.
 * - A pointer to uint64_t is a multiple of 8, a pointer to uint16_t a multiple of 2, as those of arrays and of malloc are.
 * - A slice that is written (its pointer is not to const) overlaps no other slice of the call. Slices that are only read may overlap.
 * - While a call runs nobody else writes a slice of it, and nobody else reads a slice that it writes. This holds of memory too: words that a guest may
 *   write at any time are copied first.
 *
 * Threads. Nothing is kept between calls: there are no variables outside the slices, no allocation, and no calls of the C library but memset in
 * celltimber_covers. Calls may run at the same time if no slice that one of them writes is lent to another. So each bridge has a state and interrupts of its
 * own, with a cache a memory and a cache of its own too, and is served by one thread at a time.
 */
#ifndef CELLTIMBER_H
#define CELLTIMBER_H

#include <stddef.h>
#include <stdint.h>

#ifdef __cplusplus
extern "C" {
#endif

/* ---- Requests ---- */

/*
 * Eight words each. The first is the kind; those that a kind does not name here are not read.
 *
 *   kind                   words 1 to 5
 *   CELLTIMBER_DMA         requester, direction, address, length in bytes, data (below 2^32). An MSI is a DMA too: its address makes it one
 *   CELLTIMBER_LOAD        address, width in bytes
 *   CELLTIMBER_STORE       address, width in bytes
 *   CELLTIMBER_ERROR       requester: an error message of a device
 *   CELLTIMBER_CLEAR       PE, part: firmware releases a PE
 *   CELLTIMBER_END         interrupt: firmware ends an interrupt
 *   CELLTIMBER_PRIORITY    interrupt, priority: firmware sets a priority
 *   CELLTIMBER_FATAL       requester: a fatal error message of a device sets the fence
 *   CELLTIMBER_FENCE_CLEAR none: firmware clears the fence
 *
 * Of celltimber_cached_run also:
 *
 *   CELLTIMBER_EDIT        number of a memory word (the word at byte 8 * number), value: firmware writes the word
 *   CELLTIMBER_INVALIDATE  scope, PE, address: firmware drops what the cache holds. For all neither PE nor address is read, by PE no address
 *
 * Another kind, direction, part or scope, and data of 2^32 or more, name no request; to celltimber_run an edit and an invalidate name none. Such words are
 * refused with reason 2 and change nothing. The kind CELLTIMBER_UNNAMED names no request now and later; the other kinds above CELLTIMBER_INVALIDATE may be
 * given a meaning.
 */
enum celltimber_kind {
    CELLTIMBER_DMA = 0,
    CELLTIMBER_LOAD = 1,
    CELLTIMBER_STORE = 2,
    CELLTIMBER_ERROR = 3,
    CELLTIMBER_CLEAR = 4,
    CELLTIMBER_END = 5,
    CELLTIMBER_PRIORITY = 6,
    CELLTIMBER_FATAL = 7,
    CELLTIMBER_FENCE_CLEAR = 8,
    CELLTIMBER_EDIT = 9,
    CELLTIMBER_INVALIDATE = 10
};
#define CELLTIMBER_UNNAMED UINT64_MAX

/* The direction of a DMA, seen from the device: a read reads memory. */
enum celltimber_direction {
    CELLTIMBER_READ = 0,
    CELLTIMBER_WRITE = 1
};

/* The part of a PE that CELLTIMBER_CLEAR clears: one stop bit, or the error record. */
enum celltimber_part {
    CELLTIMBER_MMIO_BIT = 0,
    CELLTIMBER_DMA_BIT = 1,
    CELLTIMBER_RECORD = 2
};

/* What CELLTIMBER_INVALIDATE drops: all that the cache holds, what it holds of a PE, or the page of a PE around an address. */
enum celltimber_scope {
    CELLTIMBER_SCOPE_ALL = 0,
    CELLTIMBER_SCOPE_PE = 1,
    CELLTIMBER_SCOPE_ADDRESS = 2
};

/* ---- Answers ---- */

/* Eight words each: the place of each. What an answer does not have is 0. */
enum celltimber_answer_word {
    CELLTIMBER_AT_NAME = 0,
    CELLTIMBER_AT_REASON = 1,
    CELLTIMBER_AT_VALUE = 2,
    CELLTIMBER_AT_WORDS = 3,    /* the count of table words read */
    CELLTIMBER_AT_PE = 4,       /* of CELLTIMBER_PASS */
    CELLTIMBER_AT_SERVER = 5,   /* of CELLTIMBER_MSI */
    CELLTIMBER_AT_PRIORITY = 6, /* of CELLTIMBER_MSI */
    CELLTIMBER_AT_WORD = 7      /* of reasons 8 and 15: the system address of the table word that the walk stopped at */
};

/* The name of an answer, and what its value is. */
enum celltimber_answer {
    CELLTIMBER_PASS = 0,   /* the address: in the system for a DMA, on the PCI side for a load or store */
    CELLTIMBER_MSI = 1,    /* the number of the interrupt that is presented */
    CELLTIMBER_HELD = 2,   /* the number of the interrupt that is held: nothing is presented */
    CELLTIMBER_ONES = 3,   /* a load of an MMIO stopped PE, or on a fenced bridge: all ones of its width; reason 11 or 18 */
    CELLTIMBER_DROP = 4,   /* a store of an MMIO stopped PE, or on a fenced bridge: 0; reason 11 or 18 */
    CELLTIMBER_REFUSE = 5, /* 0; the reason says why */
    CELLTIMBER_DONE = 6    /* 0; an error message, fatal or not, or a firmware request was obeyed */
};

/* The reason of an answer, and of an error record. In both 0 is none. 'Freezes': both stop bits of the PE
 * are set, and of no other PE; an error message sets those of each of its peers too. */
enum celltimber_reason {
    CELLTIMBER_REASON_TABLE_LENGTH = 1,      /* N, M, R or a length is off its limits */
    CELLTIMBER_REASON_BAD_REQUEST = 2,       /* badly formed, words that name no request, or an edit outside memory */
    CELLTIMBER_REASON_UNKNOWN_REQUESTER = 3, /* R or above, or its PE is N or above */
    CELLTIMBER_REASON_DMA_STOPPED = 4,       /* the PE is DMA stopped */
    CELLTIMBER_REASON_ADDRESS_CLASS = 5,     /* address bits 63 to 60 are 2 or more; freezes */
    CELLTIMBER_REASON_BAD_ENTRY = 6,         /* the translation record is disabled or bad; freezes */
    CELLTIMBER_REASON_OUTSIDE_WINDOW = 7,    /* the address is outside the record's window; freezes */
    CELLTIMBER_REASON_TABLE_WORD = 8,        /* a table word forbids it, or leads to a misaligned table; freezes */
    CELLTIMBER_REASON_MSI_REFUSED = 9,       /* an MSI of a bad form, number or record; freezes */
    CELLTIMBER_REASON_NO_WINDOW = 10,        /* no open window, or its PE is N or above */
    CELLTIMBER_REASON_MMIO_STOPPED = 11,     /* the PE is MMIO stopped; with CELLTIMBER_ONES and CELLTIMBER_DROP */
    CELLTIMBER_REASON_ERROR_MESSAGE = 12,    /* in an error record alone: an error message froze the PE */
    CELLTIMBER_REASON_FROZEN_AS_PEER = 13,   /* in an error record alone: the PE was frozen as a peer */
    CELLTIMBER_REASON_BAD_FIRMWARE = 14,     /* firmware names no PE or no good interrupt */
    CELLTIMBER_REASON_OUTSIDE_MEMORY = 15,   /* a table word is outside the lent memory; freezes */
    CELLTIMBER_REASON_ABOVE_INSTALLED = 17,  /* the last byte of a DMA is at or above the installed size; freezes */
    CELLTIMBER_REASON_FENCED = 18            /* the fence is set: of a DMA, MSI, load, store or error message that is not fatal */
};

/* ---- Numbers of the tables ---- */

enum celltimber_number {
    CELLTIMBER_REQUEST_WORDS = 8,
    CELLTIMBER_ANSWER_WORDS = 8,

    /* the most PEs (N, at least 1), interrupts (M), requesters (R, at least 1) and words of memory */
    CELLTIMBER_MOST_PES = 256,
    CELLTIMBER_MOST_INTERRUPTS = 4096,
    CELLTIMBER_MOST_REQUESTERS = 65536,
    CELLTIMBER_MOST_MEMORY = 1048576,

    /* the words of a PE's two translation records, and of one; of a peer vector; of an interrupt; of a PE's state */
    CELLTIMBER_ENTRY_WORDS = 8,
    CELLTIMBER_RECORD_WORDS = 4,
    CELLTIMBER_PEER_WORDS = 4,
    CELLTIMBER_INTERRUPT_WORDS = 4,
    CELLTIMBER_STATE_WORDS = 4,

    /* the words of the state after those of all PEs: the fence word, which is no PE's */
    CELLTIMBER_FENCE_WORDS = 1,

    /* the words of all windows: those of M32 first, then those of the 16 M64 windows; the segments of M32 */
    CELLTIMBER_WINDOW_WORDS = 67,
    CELLTIMBER_M32_WORDS = 3,
    CELLTIMBER_M64_WORDS = 4,
    CELLTIMBER_M64_COUNT = 16,
    CELLTIMBER_SEGMENT_COUNT = 256,

    /* the words of the cache, and of one of its 256 slots */
    CELLTIMBER_CACHE_WORDS = 1024,
    CELLTIMBER_SLOT_WORDS = 4,

    /* the priority that holds every MSI; none is above it */
    CELLTIMBER_HOLDING = 255,

    /* the bits of a stop word, the first word of a PE's state; its other bits stay */
    CELLTIMBER_MMIO_STOP = 1,
    CELLTIMBER_DMA_STOP = 2,

    /* the fence, in the fence word, the last word of the state; its other bits stay */
    CELLTIMBER_FENCE = 1,

    /* the two bits of the last word of an interrupt */
    CELLTIMBER_P = 2,
    CELLTIMBER_Q = 1,

    /* celltimber_owner: the request belongs to nobody */
    CELLTIMBER_NOBODY = 65536
};

/* The number of each table, in the order in which celltimber_run takes them. */
enum celltimber_table {
    CELLTIMBER_TABLE_REQUESTERS = 0,
    CELLTIMBER_TABLE_ENTRIES = 1,
    CELLTIMBER_TABLE_MEMORY = 2,
    CELLTIMBER_TABLE_PEERS = 3,
    CELLTIMBER_TABLE_INTERRUPTS = 4,
    CELLTIMBER_TABLE_WINDOWS = 5,
    CELLTIMBER_TABLE_SEGMENTS = 6,
    CELLTIMBER_TABLE_STATE = 7
};

/* ---- libbridge.a ---- */

/*
 * Serves the requests in their order, each on the tables as the last one left them, and writes answer k to the words from answers[8 * k].
 * Returns their number: as many whole requests as both lists hold, the least of requests_length / 8 and answers_length / 8.
 *
 *   table        length, else reason 1       a word is
 *   requesters   R, 1 to 65,536              the PE of each requester; N or above: none
 *   entries      8N, N 1 to 256              translation entries, two records to each PE: base, levels, table code, page code
 *   memory       0 to 1,048,576              word k is at system address 8k; its bytes are in the host's order
 *   peers        4N                          a peer vector to each PE: PE k is bit k mod 64 of word k div 64
 *   interrupts   4M, M 0 to 4,096            PE, server, priority, 2P + Q
 *   windows      67                          M32: base, size, PCI base; then 16 times M64: base, size, mode, PE
 *   segments     256                         the PE of each segment of M32
 *   state        4N + 1                      to each PE: stop bits, then reason, value and word of its error record; then the fence word
 *
 * A replay text names its tables by the same words, but for entries, which are 'translation' there.
 *
 * installed is the installed size: the bytes of system memory, from address 0. A DMA that would pass and whose last byte is at or above it is refused with
 * reason 17. Every number is good: none is reason 1, 0 refuses every DMA that would pass, and UINT64_MAX only one that reaches byte 2^64 - 1. It is public,
 * and the same through a sequence, as N is. The length of memory is another matter: no table word is tested against the installed size.
 *
 * The fence word is word 4N of state. While its bit 0 is set every DMA, MSI, load and store that is well formed, and every error message that is not fatal,
 * is answered with reason 18 and changes nothing. A fatal message of a requester that has a PE sets the bit, a fence clear clears it. The word is public, and
 * the host keeps it from call to call, as it keeps the rest of state.
 *
 * Written: in state the words of a PE that is frozen or released and bit 0 of the fence word, in interrupts the priority and 2P + Q of an interrupt that an MSI
 * or firmware changes, in answers the words of the answers. All other words stay, those of the lists after the last whole answer too.
 */
size_t celltimber_run(
    uint64_t pes,
    uint64_t interrupt_count,
    uint64_t requester_count,
    uint64_t installed,
    const uint16_t *requesters, size_t requesters_length,
    const uint64_t *entries, size_t entries_length,
    const uint64_t *memory, size_t memory_length,
    const uint64_t *peers, size_t peers_length,
    uint64_t *interrupts, size_t interrupts_length,
    const uint64_t *windows, size_t windows_length,
    const uint16_t *segments, size_t segments_length,
    uint64_t *state, size_t state_length,
    const uint64_t *requests, size_t requests_length,
    uint64_t *answers, size_t answers_length);

/*
 * celltimber_run with a translation cache. The tables are those of celltimber_run; memory is written too, and there is one more:
 *
 *   table        length, else reason 1       a word is
 *   cache        1,024                       256 slots of four words: PE + 1 (0: the slot is empty), half, page number, last table word
 *
 * The slot of a page is (page + 37 * (2 * PE + half)) mod 256. Half is bit 59 of the address: it picks one of the PE's two records. The page number is the
 * offset div the page size of that record. In an empty slot the other three words say nothing.
 *
 * How it is used. A sequence starts with an invalidate for all, whatever words the cache has, and goes on over as many calls and lists as the caller likes.
 * No call empties the cache by itself. Through a sequence the numbers and the tables that are only read stay, and memory is written by edits alone: a host
 * that writes a page table sends an edit for each word of it. Every answer, and each word of state, interrupts and memory, is then that of celltimber_run on
 * memory as it is at that moment; the count of table words is that of the walk, hit or miss. A host that writes memory otherwise, or changes a number or
 * another table, starts a new sequence, with an invalidate for all. On other contents of the cache a call goes by the words that the slots hold:
 * docs/HOST.md says how.
 *
 * Where no length is wrong, an edit of a word that is not in memory is 2 and any other is answered done; it drops each slot to whose page the walk, in memory as it was before, goes through
 * this word, be it the last one or an upper one. An invalidate of a PE that is N or above is 14 and drops nothing, one of another scope is 2;
 * any other is answered done, also where there is nothing to drop. By address bit 59 counts and the bits below it, aligned or not. Stop bits and the fence do not matter to edits and invalidates.
 *
 * Written beside what celltimber_run writes: the memory word of an edit; four words of the cache where a DMA passes through a page table and where a slot is
 * dropped, which then has zeros. No slice that is written overlaps another one: neither memory nor the cache may be a part of any other table here.
 */
size_t celltimber_cached_run(
    uint64_t pes,
    uint64_t interrupt_count,
    uint64_t requester_count,
    uint64_t installed,
    const uint16_t *requesters, size_t requesters_length,
    const uint64_t *entries, size_t entries_length,
    uint64_t *memory, size_t memory_length,
    const uint64_t *peers, size_t peers_length,
    uint64_t *interrupts, size_t interrupts_length,
    const uint64_t *windows, size_t windows_length,
    const uint16_t *segments, size_t segments_length,
    uint64_t *state, size_t state_length,
    uint64_t *cache, size_t cache_length,
    const uint64_t *requests, size_t requests_length,
    uint64_t *answers, size_t answers_length);

/* ---- libisolation_tests.a: only celltimber_covers writes. A group is a bit vector of four words, as a peer vector is; other words of it are nobody's ---- */

/*
 * The number of the PE that the request belongs to; CELLTIMBER_NOBODY where there is none, where a table is too short to say it, for a fence clear and for
 * words that name no request, and where N is above its limit. The request is its first six words. An invalidate that names a PE below N belongs to that PE, one
 * for all to nobody. For an edit it is CELLTIMBER_NOBODY: whether it is a group's is asked by celltimber_covers, of memory as it is before the edit.
 */
uint64_t celltimber_owner(
    uint64_t pes,
    uint64_t interrupt_count,
    uint64_t requester_count,
    const uint16_t *requesters, size_t requesters_length,
    const uint64_t *interrupts, size_t interrupts_length,
    const uint64_t *windows, size_t windows_length,
    const uint16_t *segments, size_t segments_length,
    uint64_t kind,
    uint64_t a,
    uint64_t b,
    uint64_t c,
    uint64_t d,
    uint64_t e);

/* 1 if the number is below 256 and that of a member of the group, else 0. */
uint64_t celltimber_member(const uint64_t *group, size_t group_length, uint64_t number);

/* 1 if no PE below N outside the group lists a member below N in its peer vector, else 0; 0 also where N is above its limit. */
uint64_t celltimber_closed(
    uint64_t pes,
    const uint64_t *peers, size_t peers_length,
    const uint64_t *group, size_t group_length);

/*
 * Marks exactly the memory words that a walk of a member below N reads for some address of the DMA class: marks[j] is not 0 if memory word j is one, and is 0
 * if not. The words of tables and under are room to work in, and become 0. Gives 1; or 0 where N is above its limit, or where marks, tables or under has not
 * the length of memory: all three are then as they were.
 */
uint64_t celltimber_covers(
    uint64_t pes,
    const uint64_t *entries, size_t entries_length,
    const uint64_t *memory, size_t memory_length,
    const uint64_t *group, size_t group_length,
    uint64_t *marks, size_t marks_length,
    uint64_t *tables, size_t tables_length,
    uint64_t *under, size_t under_length);

/*
 * 1 if word `index` of a table is public or the group's, else 0. The table is a number of enum celltimber_table; of another number it is 1. A memory word is
 * the group's if it has a mark. The fence word, word 4N of the state, is public.
 */
uint64_t celltimber_seen(
    uint64_t pes,
    const uint64_t *interrupts, size_t interrupts_length,
    const uint64_t *marks, size_t marks_length,
    const uint64_t *group, size_t group_length,
    uint64_t table,
    size_t index);

#ifdef __cplusplus
}
#endif

#endif
