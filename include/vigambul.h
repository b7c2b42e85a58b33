/* Vigambul for C: the proved model of the lattice priority controller, on numbers and slices.
 *
 * Link crates/capi/out/libcapi.a (rt lib in crates/capi). A slice is a pointer and then its number of elements; a slice of no elements may have any pointer. What is
 * lent for writing overlaps nothing else that is lent to the same call. A call keeps nothing of what it was lent, holds no state of its own, and always returns.
 */
#ifndef VIGAMBUL_H
#define VIGAMBUL_H

#include <stddef.h>
#include <stdint.h>

/* A word is an offer in a trace, or a command or an answer in a log. Bit 31 is set; bit 30 is set for a column command alone; the class is in bits 24 to 28, the rank in 22 and 23
 * (0 to 3; 0 alone if the policy's timing has ten bytes), the kind in 20 and 21 (0 read, 1 write), the bank in 16 to 19 (0 to 7), the tag in 0 to 15, and the other bits are 0. A
 * trace number of 0 is a tick; a command or an answer of 0 is none. A number that is too large for its field loses its upper bits: an offer of class 32 is one of class 0. Each
 * macro's value is a uint32_t, and each argument is evaluated once. VIGAMBUL_OFFER is an offer on rank 0, VIGAMBUL_OFFER_ON one on any.
 */
#define VIGAMBUL_TICK UINT32_C(0)
#define VIGAMBUL_OFFER_ON(class_, rank, kind, bank, tag) \
    (UINT32_C(0x80000000) | (((uint32_t)(class_) & UINT32_C(31)) << 24) | (((uint32_t)(rank) & UINT32_C(3)) << 22) | \
     (((uint32_t)(kind) & UINT32_C(3)) << 20) | (((uint32_t)(bank) & UINT32_C(15)) << 16) | ((uint32_t)(tag) & UINT32_C(0xFFFF)))
#define VIGAMBUL_OFFER(class_, kind, bank, tag) VIGAMBUL_OFFER_ON(class_, 0, kind, bank, tag)
#define VIGAMBUL_CLASS(word) (((uint32_t)(word) >> 24) & UINT32_C(31))
#define VIGAMBUL_RANK(word) (((uint32_t)(word) >> 22) & UINT32_C(3))
#define VIGAMBUL_KIND(word) (((uint32_t)(word) >> 20) & UINT32_C(3))
#define VIGAMBUL_BANK(word) (((uint32_t)(word) >> 16) & UINT32_C(15))
#define VIGAMBUL_TAG(word) ((uint32_t)(word) & UINT32_C(0xFFFF))

/* Of a command's word: 1 if it is a column command, 0 if it is an activate or none. */
#define VIGAMBUL_IS_COLUMN(word) (((uint32_t)(word) >> 30) & UINT32_C(1))

/* Of a turn number, the fourth of a line: 1 if a turn starts there; then its owner, 1 if the owner's dead time is dropped, and how many classes the walk tried, the owner counted, in
 * bits 16 to 20: 1 to 16, and never above vigambul_walk_bound of the walk's first class. (Of a turn number of 0 there is no owner and no walk. In an extract 512 is a turn whose owner
 * the class, or the set of classes, may not see: VIGAMBUL_TURN_HIDDEN. It does not say how many classes were tried: VIGAMBUL_TURN_TRIED of it is 0.)
 */
#define VIGAMBUL_TURN_HIDDEN UINT32_C(512)
#define VIGAMBUL_TURN_STARTS(turn) ((uint32_t)((uint32_t)(turn) != UINT32_C(0)))
#define VIGAMBUL_TURN_OWNER(turn) ((((uint32_t)(turn)) & UINT32_C(255)) - UINT32_C(1))
#define VIGAMBUL_TURN_DROPPED(turn) (((uint32_t)(turn) >> 8) & UINT32_C(1))
#define VIGAMBUL_TURN_TRIED(turn) (((uint32_t)(turn) >> 16) & UINT32_C(31))

/* What is turned down, by document 01's numbers. */
enum vigambul_refusal {
    VIGAMBUL_TAKEN = 0,
    VIGAMBUL_REFUSED_CONTENTS = 1,    /* file under 17 or above 65,535 bytes, or contents not as document 01 has them, lengths apart */
    VIGAMBUL_REFUSED_LENGTH = 2,      /* n not 1 to 16, or a body's length does not fit it; the timing's is 10, or 11 with a rank gap */
    VIGAMBUL_REFUSED_ROW = 3,         /* a row has a bit at n or above, or lacks its own */
    VIGAMBUL_REFUSED_BOTH_WAYS = 4,   /* two classes flow to each other */
    VIGAMBUL_REFUSED_TRANSITIVE = 5,  /* not transitive */
    VIGAMBUL_REFUSED_LEAST = 6,       /* no least class */
    VIGAMBUL_REFUSED_TURNS = 7,       /* E or the sum of minimums out of range */
    VIGAMBUL_REFUSED_TIMING = 8,      /* a timing byte out of range; the eleventh, the rank gap, is 1 to the dead time */
    VIGAMBUL_REFUSED_CLASS = 9,       /* class not below n, or a set of classes with such a class */
    VIGAMBUL_REFUSED_BANK_KIND = 10,  /* bank above 7, kind above 1, or a rank other than 0 with ten timing bytes */
    VIGAMBUL_REFUSED_QUEUE = 11,      /* 8 requests of that class wait */
    VIGAMBUL_REFUSED_LAST_TICK = 12,  /* a tick after 16,777,215 ticks; of a log to record, if its start and its ticks together are above that */
    VIGAMBUL_REFUSED_RANGE = 13,      /* a state or policy handed in has numbers out of range (none of these functions is handed one) */
    VIGAMBUL_REFUSED_MALFORMED = 14,  /* a trace number of neither form */
    VIGAMBUL_REFUSED_LOG = 15,        /* log shorter than 4 times the trace */
    VIGAMBUL_REFUSED_ROOM = 16,       /* too little room: for what an extract keeps, for what is recorded, or for the file of an order */
    VIGAMBUL_REFUSED_LOG_LENGTH = 17, /* log to extract or to record not 4 times the trace */
    VIGAMBUL_REFUSED_RECORDING = 18,  /* a recording with an odd length, a cycle not above the one before, or a due cycle past 32 bits */
    VIGAMBUL_REFUSED_ORDER = 20       /* an order of n classes, n not 1 to 4 */
};

#ifdef __cplusplus
extern "C" {
#endif

/* Reads the policy file's bytes, makes its fresh state, and runs the trace from it into the log: four numbers (status, command, answer, turn) for each trace number.
 *
 * Answers 0; or 1 to 8, the number that refuses the file; or 15, if log_len is less than 4 times trace_len. Where it answers anything but 0, nothing is written.
 * Numbers of the log past 4 times trace_len stay as they are. A trace number that is refused (9 to 12, 14) has its number in its own line's status, and the run
 * goes on.
 */
uint32_t vigambul_run(const uint8_t *policy, size_t policy_len,
                      const uint32_t *trace, size_t trace_len,
                      uint32_t *log, size_t log_len);

/* Reads the policy file's bytes, and writes what class_ may see of a log to the start of out: nothing of malformed words and of offers whose class may not flow to
 * class_ or does not exist; of a tick, a command or an answer of such a class as 0, and such an owner's turn number as 512. The log is the trace's, four numbers for
 * each trace number, and may hold anything.
 *
 * Answers how many numbers it wrote, and puts into status 0; or 1 to 8, the number that refuses the file; or 9, if class_ is none of the policy's classes; or 17, if
 * log_len is not 4 times trace_len; or 16, if out_len is less than what is kept. Where status is anything but 0, the count is 0 and nothing is written. Numbers of out
 * past the count stay as they are. 4 times trace_len is always enough for out.
 */
size_t vigambul_extract(const uint8_t *policy, size_t policy_len, uint32_t class_,
                        const uint32_t *trace, size_t trace_len,
                        const uint32_t *log, size_t log_len,
                        uint32_t *out, size_t out_len, uint32_t *status);

/* The same for a set of classes, such as tenants who compare notes: writes what may be seen of a log by at least one of them. Bit c of classes is set if class c is in the
 * set. A command, an answer or an offer is kept if its class may flow to at least one class of the set, and an owner's turn number so too. The empty set, 0, keeps the
 * ticks, with no commands or answers and with 512 at each turn start. A set of one class gives what vigambul_extract gives for it.
 *
 * Answers as vigambul_extract does, and puts into status 0; or 1 to 8, the number that refuses the file; or 9, if classes has a bit at n or above, 16 to 31 counted; or 17,
 * if log_len is not 4 times trace_len; or 16, if out_len is less than what is kept. Where status is anything but 0, the count is 0 and nothing is written. Numbers of out
 * past the count stay as they are. 4 times trace_len is always enough for out.
 */
size_t vigambul_extract_set(const uint8_t *policy, size_t policy_len, uint32_t classes,
                            const uint32_t *trace, size_t trace_len,
                            const uint32_t *log, size_t log_len,
                            uint32_t *out, size_t out_len, uint32_t *status);

/* Reads the policy file's bytes, and answers how many classes a walk that starts at class_ tries at most, class_ counted: the number of classes on the longest rising chain from it,
 * 1 to 16. The greatest of these is that of the least class: so many classes hardware must be able to try in one cycle.
 *
 * Puts into status 0; or 1 to 8, the number that refuses the file; or 9, if class_ is none of the policy's classes. Where status is anything but 0, the answer is 0.
 */
uint32_t vigambul_walk_bound(const uint8_t *policy, size_t policy_len, uint32_t class_, uint32_t *status);

/* Holds two recordings together: of the activates on the command wires, and of the answers at the cores. A recording is cycle, word, cycle, word: two numbers for each event, which
 * may hold anything. An activate and an answer are partners if their words are equal and the answer's cycle is delay above the activate's. An activate's answer is due delay after it,
 * an answer at its own cycle; events are taken in the order of these due cycles, an activate before an answer where a due cycle is shared but the words differ. The rest is that of
 * the recording which holds the first event without a partner, beginning at it.
 *
 * Answers 0; or 18, if a recording has an odd length, a cycle not above the one before it, or (the wires alone) a cycle that with delay added is above 2^32 - 1. Two recordings of no
 * events are sound. Always puts numbers into which and at. Where the answer is 0: into which 1, if the first event without a partner is an activate, 2, if it is an answer, and 0, if
 * all have partners; into at the place in that recording where the rest begins (that of the event's cycle, an even number), and wires_len, if all have partners. Where it is 18: into
 * which the unsound recording, 1 the wires, 2 the cores, and 1 if both are; into at wires_len, whichever it is.
 */
uint32_t vigambul_match(const uint32_t *wires, size_t wires_len,
                        const uint32_t *cores, size_t cores_len,
                        uint8_t delay, uint32_t *which, size_t *at);

/* Writes the wires' recording of a log to the start of wires, so that a lab's can be held against it: cycle and word of each activate. The log is the trace's, four numbers for each
 * trace number, and may hold anything; start is the number of ticks that were made before it. Its ticks are the trace numbers of 0 whose status in the log is 0, and their cycles are
 * start, start + 1 and so on; a tick that is refused has none, and no line that is not a tick's is looked at. An activate is a command that is not 0 and has bit 30 clear.
 *
 * Answers 0; or 17, if log_len is not 4 times trace_len; or 12, if start plus the number of ticks is above 16,777,215; or 16, if wires_len is less than what is recorded. They are
 * asked in this order. Always puts into count how many numbers it wrote, two for each activate; where the answer is anything but 0, the count is 0 and nothing is written. Numbers of
 * wires past the count stay as they are. 2 times trace_len is always enough for wires. What it writes is sound for vigambul_match under every delay.
 */
uint32_t vigambul_wires(const uint32_t *trace, size_t trace_len,
                        const uint32_t *log, size_t log_len, uint32_t start,
                        uint32_t *wires, size_t wires_len, size_t *count);

/* The same for the cores' recording: cycle and word of each answer that is not 0. Where nothing is in flight at both ends of a stretch of a run's log, its two recordings match fully
 * under its policy's answer delay: vigambul_match answers 0 with 0 in which.
 */
uint32_t vigambul_cores(const uint32_t *trace, size_t trace_len,
                        const uint32_t *log, size_t log_len, uint32_t start,
                        uint32_t *cores, size_t cores_len, size_t *count);

/* Writes a policy file with one legal order of n classes, n from 1 to 4, to the start of file, so that a regression can have them all. A legal order is one that the reading of a file
 * takes: reflexive, antisymmetric and transitive, with a least class, which may have any number. There are 1, 2, 9 and 76 of them. They come by rising value of the rows read as one
 * number, row 0 most significant, 16 bits a row; each legal order is there, and none twice. Each is fetched by its place, from 0. In the file E is 4, every minimum is 0, and the timing
 * body is timing, ten bytes, or eleven with a rank gap.
 *
 * Answers 0; or 20, if n is not 1 to 4; or 2, if timing_len is neither 10 nor 11; or 8, if a timing byte is out of range; or 16, if file_len is less than the file's bytes. They are
 * asked in this order, and before 16 the place is: past the last the answer is 0, and there is no file, whatever the room. Always puts into len how many bytes it wrote: 18 + 3 times n
 * + timing_len, or 0 where the answer is anything but 0 or the place is past the last; then nothing is written. Bytes of file past len stay as they are. 41 bytes are always enough for
 * file. What it writes no number refuses: vigambul_run and the others take it.
 */
uint32_t vigambul_order(uint32_t n, uint32_t place,
                        const uint8_t *timing, size_t timing_len,
                        uint8_t *file, size_t file_len, size_t *len);

#ifdef __cplusplus
}
#endif

#endif
