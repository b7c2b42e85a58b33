/* include/vigambul.h as a caller has it, in C and in C++: each function is called, slices of no elements have a null pointer, and each macro and number is held against what
 * the library takes and writes.
 *
 * It says what is not as it must be, and ends with 0 if all is.
 */
#include "vigambul.h"

#include <stdio.h>
#include <string.h>

#define COUNT(slice) (sizeof(slice) / sizeof((slice)[0]))

/* Document 01's printed log, with its policy and its trace. */
static const uint8_t POLICY[] = {
    0x03, 0x01, 0x10, 0x00, 0x05, 0x00, 0x02, 0x15, 0x00, 0x03, 0x00, 0x03,
    0x18, 0x00, 0x0A, 0x00, 0x02, 0x03, 0x00, 0x02, 0x00, 0x03, 0x00, 0x02,
    0x04, 0x02, 0x02, 0x02, 0x02, 0x02, 0x02, 0x02, 0x01, 0x02};
static const uint32_t TRACE[] = {0x80010007, 0, 0, 0};
static const uint32_t LOG[] = {
    0, 0,          0,          0,
    0, 0x80010007, 0,          0x00010101,
    0, 0xC0010007, 0,          0,
    0, 0,          0x80010007, 0};

/* What no call writes. */
#define UNWRITTEN 0x5AA55AA5

static int failures = 0;

static void expect(int holds, const char *what)
{
    if (!holds) {
        printf("%s\n", what);
        failures++;
    }
}

static void runs(void)
{
    uint32_t log[COUNT(LOG) + 1];
    log[COUNT(LOG)] = UNWRITTEN;
    expect(vigambul_run(POLICY, COUNT(POLICY), TRACE, COUNT(TRACE), log, COUNT(log)) == 0, "a run with room for more");
    expect(memcmp(log, LOG, sizeof LOG) == 0, "the printed log");
    expect(log[COUNT(LOG)] == UNWRITTEN, "a number past the log");

    memset(log, 0x55, sizeof log);
    expect(vigambul_run(POLICY, COUNT(POLICY), TRACE, COUNT(TRACE), log, COUNT(LOG) - 1) == 15, "a log one number short");
    expect(log[0] == 0x55555555, "a refused run that writes");

    expect(vigambul_run(POLICY, COUNT(POLICY), NULL, 0, NULL, 0) == 0, "a run over nothing");
    expect(vigambul_run(POLICY, COUNT(POLICY), TRACE, COUNT(TRACE), NULL, 0) == 15, "no log");
    expect(vigambul_run(POLICY, COUNT(POLICY) - 1, NULL, 0, NULL, 0) == 1, "a file that is cut off");
    expect(vigambul_run(NULL, 0, TRACE, COUNT(TRACE), log, COUNT(log)) == 1, "no file");
    expect(vigambul_run(NULL, 0, NULL, 0, NULL, 0) == 1, "nothing at all");
}

static void extracts(void)
{
    static const uint32_t of_class_1[] = {0x81000000, 0};
    uint32_t out[COUNT(LOG) + 1];
    uint32_t log[8];
    uint32_t status = UNWRITTEN;
    out[COUNT(LOG)] = UNWRITTEN;
    expect(vigambul_extract(POLICY, COUNT(POLICY), 0, TRACE, COUNT(TRACE), LOG, COUNT(LOG), out, COUNT(out), &status) == COUNT(LOG), "the count of an extract");
    expect(status == 0, "its status");
    expect(memcmp(out, LOG, sizeof LOG) == 0, "the extract of the printed log");
    expect(out[COUNT(LOG)] == UNWRITTEN, "a number past the extract");

    /* The trace and its log cannot be taken for each other: class 0 does not see the offer of class 1. */
    expect(vigambul_run(POLICY, COUNT(POLICY), of_class_1, COUNT(of_class_1), log, COUNT(log)) == 0, "a run of class 1");
    expect(log[7] == 0x00020102 && VIGAMBUL_TURN_TRIED(log[7]) == 2, "a walk past class 0");
    expect(vigambul_extract(POLICY, COUNT(POLICY), 0, of_class_1, COUNT(of_class_1), log, COUNT(log), out, COUNT(out), &status) == 4, "the count of what class 0 sees");
    expect(status == 0 && out[0] == 0 && out[1] == 0 && out[2] == 0 && out[3] == 512, "what class 0 sees");

    expect(vigambul_extract(POLICY, COUNT(POLICY), 1, NULL, 0, NULL, 0, NULL, 0, &status) == 0 && status == 0, "an extract of nothing");
    expect(vigambul_extract(POLICY, COUNT(POLICY), 2, NULL, 0, NULL, 0, NULL, 0, &status) == 0 && status == 9, "no such class");
    expect(vigambul_extract(POLICY, COUNT(POLICY), 1, TRACE, COUNT(TRACE), NULL, 0, out, COUNT(out), &status) == 0 && status == 17, "no log to extract");
    expect(vigambul_extract(POLICY, COUNT(POLICY), 1, NULL, 0, LOG, COUNT(LOG), out, COUNT(out), &status) == 0 && status == 17, "no trace of the log");
    expect(vigambul_extract(POLICY, COUNT(POLICY), 1, TRACE, COUNT(TRACE), LOG, COUNT(LOG), NULL, 0, &status) == 0 && status == 16, "no room");
    expect(vigambul_extract(NULL, 0, 0, TRACE, COUNT(TRACE), LOG, COUNT(LOG), out, COUNT(out), &status) == 0 && status == 1, "no file to extract by");
    expect(vigambul_extract(NULL, 0, 0, NULL, 0, NULL, 0, NULL, 0, &status) == 0 && status == 1, "nothing at all to extract");
}

/* Two tenants, 1 and 2, over a base, 0: what each sees, what they see together, and what nobody sees. */
static void sets(void)
{
    static const uint8_t tenants[] = {
        3, 1, 16, 0, 7, 0, 2, 23, 0, 4, 0, 3, 27, 0, 10, 0, 3, 7, 0, 2, 0, 4, 0, 3, 0, 1, 1, 4, 2, 2, 2, 2, 2, 2, 2, 1, 2};
    static const uint32_t trace[] = {
        VIGAMBUL_OFFER(0, 0, 0, 5), VIGAMBUL_OFFER(1, 0, 0, 7), VIGAMBUL_OFFER(2, 0, 0, 8), VIGAMBUL_TICK};
    /* A set, and how many offers it keeps. */
    static const uint32_t kept[][2] = {{0, 0}, {1, 1}, {1 << 1, 2}, {1 << 2, 2}, {1 << 1 | 1 << 2, 3}, {7, 3}};
    static const uint32_t refused[] = {1 << 3, 1 << 1 | 1 << 3, 1 << 15, UINT32_C(1) << 16, UINT32_C(1) << 31, UINT32_MAX};
    enum { LINES = COUNT(trace) };
    uint32_t log[4 * LINES];
    uint32_t out[4 * LINES + 1];
    uint32_t of_class[4 * LINES + 1];
    uint32_t status = UNWRITTEN;
    size_t i;
    expect(vigambul_run(tenants, COUNT(tenants), trace, COUNT(trace), log, COUNT(log)) == VIGAMBUL_TAKEN, "a run of two tenants");
    expect(log[13] == trace[0] && log[15] == 0x00010101, "the base's turn");
    for (i = 0; i < COUNT(kept); i++) {
        const size_t offers = kept[i][1], count = 4 * (offers + 1);
        memset(out, 0x55, sizeof out);
        expect(vigambul_extract_set(tenants, COUNT(tenants), kept[i][0], trace, COUNT(trace), log, COUNT(log), out, COUNT(out), &status) == count, "the count of a set's extract");
        expect(status == VIGAMBUL_TAKEN, "its status");
        expect(out[4 * offers + 1] == (offers == 0 ? 0 : trace[0]), "the base's command as a set sees it");
        expect(out[4 * offers + 3] == (offers == 0 ? VIGAMBUL_TURN_HIDDEN : log[15]), "the base's turn as a set sees it");
        expect(out[count] == 0x55555555, "a number past a set's extract");
        expect(vigambul_extract_set(tenants, COUNT(tenants), kept[i][0], trace, COUNT(trace), log, COUNT(log), out, count - 1, &status) == 0 && status == VIGAMBUL_REFUSED_ROOM, "room for a set one number short");
    }
    for (i = 0; i < 4; i++) {
        size_t counts[2];
        uint32_t statuses[2] = {UNWRITTEN, UNWRITTEN};
        memset(out, 0x55, sizeof out);
        memset(of_class, 0x55, sizeof of_class);
        counts[0] = vigambul_extract(tenants, COUNT(tenants), (uint32_t)i, trace, COUNT(trace), log, COUNT(log), of_class, COUNT(of_class), &statuses[0]);
        counts[1] = vigambul_extract_set(tenants, COUNT(tenants), UINT32_C(1) << i, trace, COUNT(trace), log, COUNT(log), out, COUNT(out), &statuses[1]);
        expect(counts[0] == counts[1] && statuses[0] == statuses[1] && memcmp(out, of_class, sizeof out) == 0, "a set of one class");
    }
    for (i = 0; i < COUNT(refused); i++) {
        memset(out, 0x55, sizeof out);
        expect(vigambul_extract_set(tenants, COUNT(tenants), refused[i], trace, COUNT(trace), log, COUNT(log) - 1, out, COUNT(out), &status) == 0 && status == VIGAMBUL_REFUSED_CLASS, "a set with no such class");
        expect(out[0] == 0x55555555, "a refused extract for a set that writes");
        expect(vigambul_extract_set(tenants, COUNT(tenants), refused[i], trace, COUNT(trace), log, COUNT(log), NULL, 0, &status) == 0 && status == VIGAMBUL_REFUSED_CLASS, "9 before 16");
    }
    expect(vigambul_extract_set(tenants, COUNT(tenants), 6, trace, COUNT(trace), log, COUNT(log) - 1, NULL, 0, &status) == 0 && status == VIGAMBUL_REFUSED_LOG_LENGTH, "a set's log one number short");
    expect(vigambul_extract_set(tenants, COUNT(tenants), 6, NULL, 0, NULL, 0, NULL, 0, &status) == 0 && status == VIGAMBUL_TAKEN, "a set's extract of nothing");
    expect(vigambul_extract_set(tenants, COUNT(tenants) - 1, UINT32_MAX, trace, COUNT(trace), NULL, 0, NULL, 0, &status) == 0 && status == VIGAMBUL_REFUSED_CONTENTS, "a set under a file that is cut off");
    expect(vigambul_extract_set(NULL, 0, 0, NULL, 0, NULL, 0, NULL, 0, &status) == 0 && status == VIGAMBUL_REFUSED_CONTENTS, "a set under no file");
}

/* The longest chain up from each class, and 9 for any other; a file that is refused is so first. */
static void bounds(void)
{
    uint32_t status = UNWRITTEN;
    expect(vigambul_walk_bound(POLICY, COUNT(POLICY), 0, &status) == 2 && status == 0, "the bound of class 0");
    status = UNWRITTEN;
    expect(vigambul_walk_bound(POLICY, COUNT(POLICY), 1, &status) == 1 && status == 0, "the bound of class 1");
    expect(vigambul_walk_bound(POLICY, COUNT(POLICY), 2, &status) == 0 && status == VIGAMBUL_REFUSED_CLASS, "the bound of no class");
    expect(vigambul_walk_bound(POLICY, COUNT(POLICY), UINT32_MAX, &status) == 0 && status == VIGAMBUL_REFUSED_CLASS, "the bound of the highest number");
    expect(vigambul_walk_bound(POLICY, COUNT(POLICY) - 1, UINT32_MAX, &status) == 0 && status == VIGAMBUL_REFUSED_CONTENTS, "the bound of a file that is cut off");
    expect(vigambul_walk_bound(NULL, 0, 0, &status) == 0 && status == VIGAMBUL_REFUSED_CONTENTS, "the bound of no file");
    expect(VIGAMBUL_TURN_TRIED(0x001F0000) == 31 && VIGAMBUL_TURN_TRIED(0xFFE0FFFF) == 0, "the bits of tried classes");
    expect(VIGAMBUL_TURN_TRIED(VIGAMBUL_TURN_HIDDEN) == 0, "tried classes of a hidden turn");
}

/* Activates against answers: the recordings of the printed log, a dropped answer and a dropped activate, a shared due cycle, and recordings that are unsound. */
static void recordings(void)
{
    enum { WORD = 7, LAST_START = 16777215 - 3 };
    static const uint32_t of_wires[] = {0, 0x80010007};
    static const uint32_t of_cores[] = {2, 0x80010007};
    static const uint32_t wires[] = {0, WORD, 4, WORD, 9, WORD};
    static const uint32_t cores[] = {2, WORD, 6, WORD, 11, WORD};
    static const uint32_t one_dropped[] = {2, WORD, 11, WORD};
    static const uint32_t others[] = {2, WORD, 6, WORD + 1, 11, WORD};
    static const uint32_t repeated[] = {2, WORD, 2, WORD};
    static const uint32_t fallen[] = {2, WORD, 1, WORD};
    static const uint32_t last[] = {UINT32_MAX - 255, WORD};
    static const uint32_t past[] = {UINT32_MAX - 254, WORD};
    uint32_t out[2 * COUNT(TRACE) + 1];
    uint32_t which = UNWRITTEN;
    size_t at = UNWRITTEN, count = UNWRITTEN;

    expect(vigambul_match(wires, COUNT(wires), cores, COUNT(cores), 2, &which, &at) == VIGAMBUL_TAKEN, "recordings that match");
    expect(which == 0 && at == COUNT(wires), "their empty rest");
    expect(vigambul_match(wires, COUNT(wires), one_dropped, COUNT(one_dropped), 2, &which, &at) == VIGAMBUL_TAKEN && which == 1 && at == 2, "a dropped answer");
    expect(vigambul_match(one_dropped, COUNT(one_dropped), cores, COUNT(cores), 0, &which, &at) == VIGAMBUL_TAKEN && which == 2 && at == 2, "a dropped activate");
    expect(vigambul_match(wires, COUNT(wires), others, COUNT(others), 2, &which, &at) == VIGAMBUL_TAKEN && which == 1 && at == 2, "a shared due cycle with other words");
    which = UNWRITTEN;
    at = UNWRITTEN;
    expect(vigambul_match(NULL, 0, NULL, 0, 255, &which, &at) == VIGAMBUL_TAKEN && which == 0 && at == 0, "no recordings");
    expect(vigambul_match(wires, COUNT(wires), NULL, 0, 0, &which, &at) == VIGAMBUL_TAKEN && which == 1 && at == 0, "no answers");
    expect(vigambul_match(NULL, 0, cores, COUNT(cores), 0, &which, &at) == VIGAMBUL_TAKEN && which == 2 && at == 0, "no activates");

    expect(vigambul_match(wires, COUNT(wires) - 1, cores, COUNT(cores), 2, &which, &at) == VIGAMBUL_REFUSED_RECORDING && which == 1 && at == COUNT(wires) - 1, "wires of odd length");
    expect(vigambul_match(wires, COUNT(wires), cores, COUNT(cores) - 1, 2, &which, &at) == VIGAMBUL_REFUSED_RECORDING && which == 2 && at == COUNT(wires), "cores of odd length");
    expect(vigambul_match(repeated, COUNT(repeated), fallen, COUNT(fallen), 2, &which, &at) == VIGAMBUL_REFUSED_RECORDING && which == 1 && at == COUNT(repeated), "both unsound");
    expect(vigambul_match(NULL, 0, fallen, COUNT(fallen), 2, &which, &at) == VIGAMBUL_REFUSED_RECORDING && which == 2 && at == 0, "a cycle that falls");
    expect(vigambul_match(past, COUNT(past), NULL, 0, 255, &which, &at) == VIGAMBUL_REFUSED_RECORDING && which == 1 && at == COUNT(past), "a due cycle past 32 bits");
    expect(vigambul_match(last, COUNT(last), NULL, 0, 255, &which, &at) == VIGAMBUL_TAKEN && which == 1 && at == 0, "the last due cycle of 32 bits");
    expect(vigambul_match(NULL, 0, past, COUNT(past), 255, &which, &at) == VIGAMBUL_TAKEN && which == 2 && at == 0, "an answer is due at its own cycle");

    memset(out, 0x55, sizeof out);
    expect(vigambul_wires(TRACE, COUNT(TRACE), LOG, COUNT(LOG), 0, out, COUNT(out), &count) == VIGAMBUL_TAKEN && count == COUNT(of_wires), "the wires' recording");
    expect(memcmp(out, of_wires, sizeof of_wires) == 0 && out[COUNT(of_wires)] == 0x55555555, "its numbers, and one past them");
    memset(out, 0x55, sizeof out);
    expect(vigambul_cores(TRACE, COUNT(TRACE), LOG, COUNT(LOG), 0, out, COUNT(of_cores), &count) == VIGAMBUL_TAKEN && count == COUNT(of_cores), "the cores' recording");
    expect(memcmp(out, of_cores, sizeof of_cores) == 0 && out[COUNT(of_cores)] == 0x55555555, "its numbers, and one past them");
    expect(vigambul_match(of_wires, COUNT(of_wires), of_cores, COUNT(of_cores), 2, &which, &at) == VIGAMBUL_TAKEN && which == 0, "the printed log matches");
    expect(vigambul_wires(TRACE, COUNT(TRACE), LOG, COUNT(LOG), LAST_START, out, COUNT(out), &count) == VIGAMBUL_TAKEN && out[0] == LAST_START, "the last start of three ticks");

    memset(out, 0x55, sizeof out);
    count = UNWRITTEN;
    expect(vigambul_wires(TRACE, COUNT(TRACE), LOG, COUNT(LOG), LAST_START + 1, out, COUNT(out), &count) == VIGAMBUL_REFUSED_LAST_TICK && count == 0, "a tick too many on the wires");
    count = UNWRITTEN;
    expect(vigambul_cores(TRACE, COUNT(TRACE), LOG, COUNT(LOG), UINT32_MAX, NULL, 0, &count) == VIGAMBUL_REFUSED_LAST_TICK && count == 0, "a tick too many at the cores");
    count = UNWRITTEN;
    expect(vigambul_wires(TRACE, COUNT(TRACE), LOG, COUNT(LOG) - 1, UINT32_MAX, NULL, 0, &count) == VIGAMBUL_REFUSED_LOG_LENGTH && count == 0, "a log to record one number short");
    count = UNWRITTEN;
    expect(vigambul_cores(TRACE, COUNT(TRACE), NULL, 0, 0, out, COUNT(out), &count) == VIGAMBUL_REFUSED_LOG_LENGTH && count == 0, "no log to record");
    count = UNWRITTEN;
    expect(vigambul_wires(TRACE, COUNT(TRACE), LOG, COUNT(LOG), 0, out, 1, &count) == VIGAMBUL_REFUSED_ROOM && count == 0, "room for the wires one number short");
    count = UNWRITTEN;
    expect(vigambul_cores(TRACE, COUNT(TRACE), LOG, COUNT(LOG), 0, NULL, 0, &count) == VIGAMBUL_REFUSED_ROOM && count == 0, "no room for the cores");
    expect(out[0] == 0x55555555, "a refused recording that writes");
    count = UNWRITTEN;
    expect(vigambul_wires(NULL, 0, NULL, 0, 16777215, NULL, 0, &count) == VIGAMBUL_TAKEN && count == 0, "a recording of nothing");
    count = UNWRITTEN;
    expect(vigambul_cores(NULL, 0, NULL, 0, 16777216, NULL, 0, &count) == VIGAMBUL_REFUSED_LAST_TICK && count == 0, "a start past the last tick");
}

/* Every order of 1 to 4 classes, which a run takes; the first and the last by their bytes; places past the last, and calls that are refused. */
static void orders(void)
{
    static const uint8_t timing[] = {4, 2, 2, 2, 2, 2, 2, 2, 1, 2, 1, 2};
    static const uint8_t out_of_range[] = {4, 1, 1, 1, 1, 1, 1, 1, 1, 2};
    static const uint32_t counts[] = {1, 2, 9, 76};
    /* 1 below 0; and, with a rank gap, 0 below 1 below 2 below 3. */
    static const uint8_t first_of_2[] = {
        3, 1, 16, 0, 5, 0, 2, 21, 0, 3, 0, 3, 24, 0, 10, 0, 2, 1, 0, 3, 0, 4, 0, 0, 4, 2, 2, 2, 2, 2, 2, 2, 1, 2};
    static const uint8_t last_of_4[] = {
        3, 1, 16, 0, 9, 0, 2, 25, 0, 5, 0, 3, 30, 0, 11, 0, 4, 15, 0, 14, 0, 12, 0, 8, 0, 4, 0, 0, 0, 0,
        4, 2, 2, 2, 2, 2, 2, 2, 1, 2, 1};
    enum { LONGEST = 41 };
    uint8_t before[LONGEST + 1];
    uint8_t file[LONGEST + 1];
    uint32_t n, place, log[4];
    size_t len = UNWRITTEN;

    expect(sizeof last_of_4 == LONGEST, "the longest file");
    for (n = 1; n <= COUNT(counts); n++) {
        memset(before, 0, sizeof before);
        for (place = 0; place < counts[n - 1]; place++) {
            size_t i;
            int rises = 0;
            memset(file, 0x55, sizeof file);
            len = UNWRITTEN;
            expect(vigambul_order(n, place, timing, 10, file, COUNT(file), &len) == VIGAMBUL_TAKEN && len == 18 + 3 * n + 10, "an order");
            expect(file[len] == 0x55, "a byte past the file");
            expect(vigambul_run(file, len, TRACE + 1, 1, log, COUNT(log)) == VIGAMBUL_TAKEN && VIGAMBUL_TURN_STARTS(log[3]), "a run under it");
            /* The low byte of each row, row 0 first; the high bytes are 0. */
            for (i = 0; i < n && rises == 0; i++)
                rises = (int)file[17 + 2 * i] - (int)before[17 + 2 * i];
            expect(rises > 0, "an order that rises");
            memcpy(before, file, sizeof file);
        }
        memset(file, 0x55, sizeof file);
        len = UNWRITTEN;
        expect(vigambul_order(n, place, timing, 10, file, COUNT(file), &len) == VIGAMBUL_TAKEN && len == 0, "a place past the last");
        len = UNWRITTEN;
        expect(vigambul_order(n, UINT32_MAX, timing, 11, NULL, 0, &len) == VIGAMBUL_TAKEN && len == 0 && file[0] == 0x55, "the last place of all");
    }
    expect(vigambul_order(2, 0, timing, 10, file, sizeof first_of_2, &len) == VIGAMBUL_TAKEN && len == sizeof first_of_2, "the first of two classes");
    expect(memcmp(file, first_of_2, sizeof first_of_2) == 0, "its bytes");
    expect(vigambul_order(4, 75, timing, 11, file, sizeof last_of_4, &len) == VIGAMBUL_TAKEN && len == sizeof last_of_4, "the last of four classes");
    expect(memcmp(file, last_of_4, sizeof last_of_4) == 0, "its bytes, with a rank gap");

    memset(file, 0x55, sizeof file);
    len = UNWRITTEN;
    expect(vigambul_order(0, 0, NULL, 0, NULL, 0, &len) == VIGAMBUL_REFUSED_ORDER && len == 0, "no classes");
    len = UNWRITTEN;
    expect(vigambul_order(5, 0, out_of_range, COUNT(out_of_range), file, COUNT(file), &len) == VIGAMBUL_REFUSED_ORDER && len == 0, "five classes");
    len = UNWRITTEN;
    expect(vigambul_order(4, 76, timing, 9, file, COUNT(file), &len) == VIGAMBUL_REFUSED_LENGTH && len == 0, "nine timing bytes");
    len = UNWRITTEN;
    expect(vigambul_order(4, 75, timing, 12, NULL, 0, &len) == VIGAMBUL_REFUSED_LENGTH && len == 0, "twelve timing bytes");
    len = UNWRITTEN;
    expect(vigambul_order(1, 0, NULL, 0, file, COUNT(file), &len) == VIGAMBUL_REFUSED_LENGTH && len == 0, "no timing bytes");
    len = UNWRITTEN;
    expect(vigambul_order(4, 76, out_of_range, COUNT(out_of_range), NULL, 0, &len) == VIGAMBUL_REFUSED_TIMING && len == 0, "a dead time of 1");
    len = UNWRITTEN;
    expect(vigambul_order(4, 75, timing, 11, file, LONGEST - 1, &len) == VIGAMBUL_REFUSED_ROOM && len == 0, "room for an order one byte short");
    len = UNWRITTEN;
    expect(vigambul_order(1, 0, timing, 10, NULL, 0, &len) == VIGAMBUL_REFUSED_ROOM && len == 0, "no room for an order");
    expect(file[0] == 0x55, "a refused order that writes");
}

/* The numbers of the refusals, each of a call that gets it; 12 in a run is a tick too far to run here, and 13 is of states that no caller hands in. */
static void refusals(void)
{
    /* A byte of the policy, what it becomes, and the number. */
    static const uint32_t changes[][3] = {
        {0, 4, VIGAMBUL_REFUSED_CONTENTS}, {16, 17, VIGAMBUL_REFUSED_LENGTH}, {17, 2, VIGAMBUL_REFUSED_ROW},
        {19, 3, VIGAMBUL_REFUSED_BOTH_WAYS}, {17, 1, VIGAMBUL_REFUSED_LEAST}, {21, 0, VIGAMBUL_REFUSED_TURNS},
        {25, 1, VIGAMBUL_REFUSED_TIMING}, {33, 2, VIGAMBUL_TAKEN}};
    static const uint8_t not_transitive[] = {
        3, 1, 16, 0, 7, 0, 2, 23, 0, 4, 0, 3, 27, 0, 10, 0, 3, 3, 0, 6, 0, 4, 0, 3, 0, 1, 1, 4, 2, 2, 2, 2, 2, 2, 2, 1, 2};
    static const uint32_t trace[] = {
        VIGAMBUL_OFFER(2, 0, 0, 1), VIGAMBUL_OFFER(0, 0, 8, 2), VIGAMBUL_OFFER(0, 2, 0, 3), 1, VIGAMBUL_OFFER(1, 1, 7, 4)};
    static const uint32_t statuses[] = {
        VIGAMBUL_REFUSED_CLASS, VIGAMBUL_REFUSED_BANK_KIND, VIGAMBUL_REFUSED_BANK_KIND, VIGAMBUL_REFUSED_MALFORMED, VIGAMBUL_TAKEN};
    uint32_t log[36];
    uint32_t offers[9];
    uint32_t status = 0;
    size_t i;
    for (i = 0; i < COUNT(changes); i++) {
        uint8_t policy[sizeof POLICY];
        memcpy(policy, POLICY, sizeof POLICY);
        policy[changes[i][0]] = (uint8_t)changes[i][1];
        expect(vigambul_run(policy, COUNT(policy), NULL, 0, NULL, 0) == changes[i][2], "the number of a refused file");
    }
    expect(vigambul_run(not_transitive, COUNT(not_transitive), NULL, 0, NULL, 0) == VIGAMBUL_REFUSED_TRANSITIVE, "a file that is not transitive");

    expect(vigambul_run(POLICY, COUNT(POLICY), trace, COUNT(trace), log, COUNT(log)) == VIGAMBUL_TAKEN, "a run with refused lines");
    for (i = 0; i < COUNT(trace); i++)
        expect(log[4 * i] == statuses[i], "the number of a refused line");
    for (i = 0; i < COUNT(offers); i++)
        offers[i] = VIGAMBUL_OFFER(0, 0, 0, i);
    expect(vigambul_run(POLICY, COUNT(POLICY), offers, COUNT(offers), log, COUNT(log)) == VIGAMBUL_TAKEN, "nine offers");
    expect(log[4 * 7] == VIGAMBUL_TAKEN && log[4 * 8] == VIGAMBUL_REFUSED_QUEUE, "the ninth of a class");
    expect(vigambul_run(POLICY, COUNT(POLICY), offers, COUNT(offers), log, COUNT(log) - 1) == VIGAMBUL_REFUSED_LOG, "the number of a short log");

    expect(vigambul_extract(POLICY, COUNT(POLICY), 0, TRACE, COUNT(TRACE), LOG, COUNT(LOG), log, COUNT(LOG) - 1, &status) == 0 && status == VIGAMBUL_REFUSED_ROOM, "the number of too little room");
    expect(vigambul_extract(POLICY, COUNT(POLICY), 0, TRACE, COUNT(TRACE), LOG, COUNT(LOG) - 1, log, COUNT(log), &status) == 0 && status == VIGAMBUL_REFUSED_LOG_LENGTH, "the number of a log to extract");
    expect(VIGAMBUL_REFUSED_RANGE == 13, "the number that no call here gets");
    expect(VIGAMBUL_REFUSED_LAST_TICK == 12 && VIGAMBUL_REFUSED_RECORDING == 18, "the numbers of recordings");
    expect(VIGAMBUL_REFUSED_ORDER == 20, "the number of orders");
}

/* The words and turn numbers of a run: eight requests of class 0 wait, so its owners are 0, 1 and 1, with the dead time dropped, dropped and kept (document 01's worked turn b). */
static void words(void)
{
    enum { OFFERS = 9, TICKS = 12, COLUMN = 0x40000000 };
    static const uint32_t owners[] = {0, 1, 1};
    static const uint32_t dropped[] = {1, 1, 0};
    uint32_t trace[OFFERS + TICKS];
    uint32_t log[4 * COUNT(trace)];
    uint32_t out[4 * COUNT(trace)];
    uint32_t status = UNWRITTEN;
    uint32_t seen[4] = {0, 0, 0, 0};
    const uint32_t *next = trace;
    size_t i, kept, turns = 0;
    int low = 0xBE00;

    expect(VIGAMBUL_OFFER(0, 0, 1, 7) == TRACE[0] && VIGAMBUL_TICK == TRACE[1], "document 01's trace");
    for (i = 0; i < 8; i++)
        trace[i] = VIGAMBUL_OFFER(0, i % 2, i, 0x100 + i);
    /* Any expression may stand for an argument. */
    trace[8] = VIGAMBUL_OFFER(low ? 1 : 2, 0 | 1, 2 + 3, low | 0xEF);
    expect(trace[8] == 0x8115BEEF, "an offer's word");
    expect(VIGAMBUL_OFFER(32 + 31, 4 + 3, 16 + 15, 0x10000 + 9) == 0x9F3F0009, "fields that are too large");
    for (i = OFFERS; i < COUNT(trace); i++)
        trace[i] = VIGAMBUL_TICK;
    expect(VIGAMBUL_TAG(*next++) == 0x100 && next == trace + 1, "an argument that is evaluated once");

    expect(vigambul_run(POLICY, COUNT(POLICY), trace, COUNT(trace), log, COUNT(log)) == VIGAMBUL_TAKEN, "a run of words");
    for (i = OFFERS; i < COUNT(trace); i++) {
        const uint32_t command = log[4 * i + 1], answer = log[4 * i + 2], turn = log[4 * i + 3];
        const uint32_t word = command != 0 ? command : answer;
        if (word != 0) {
            const uint32_t again = VIGAMBUL_OFFER(VIGAMBUL_CLASS(word), VIGAMBUL_KIND(word), VIGAMBUL_BANK(word), VIGAMBUL_TAG(word));
            size_t offer = 0;
            expect((again | (VIGAMBUL_IS_COLUMN(word) != 0 ? (uint32_t)COLUMN : 0)) == word, "a word of its parts");
            while (offer < OFFERS && trace[offer] != again)
                offer++;
            expect(offer < OFFERS, "a word of no offer");
            expect(VIGAMBUL_CLASS(word) == (offer == 8 ? 1U : 0U), "a word's class");
            expect(VIGAMBUL_KIND(word) == (offer == 8 ? 1U : (uint32_t)(offer % 2)), "a word's kind");
            expect(VIGAMBUL_BANK(word) == (offer == 8 ? 5U : (uint32_t)offer), "a word's bank");
            expect(VIGAMBUL_TAG(word) == (offer == 8 ? 0xBEEFU : 0x100U + (uint32_t)offer), "a word's tag");
        }
        if (command != 0)
            seen[VIGAMBUL_IS_COLUMN(command)]++;
        if (answer != 0)
            seen[2]++;
        expect(VIGAMBUL_IS_COLUMN(answer) == 0, "an answer that is a column command");
        expect(VIGAMBUL_TURN_STARTS(turn) == ((i - OFFERS) % 4 == 0 ? 1U : 0U), "a turn's start");
        if (VIGAMBUL_TURN_STARTS(turn) && turns < COUNT(owners)) {
            expect(VIGAMBUL_TURN_OWNER(turn) == owners[turns], "a turn's owner");
            expect(VIGAMBUL_TURN_DROPPED(turn) == dropped[turns], "a turn's dead time");
            expect(VIGAMBUL_TURN_TRIED(turn) == 1, "a walk of one class");
            expect(turn == 1 + VIGAMBUL_TURN_OWNER(turn) + 256 * VIGAMBUL_TURN_DROPPED(turn) + 65536 * VIGAMBUL_TURN_TRIED(turn), "a turn number of its parts");
            turns++;
        }
    }
    expect(turns == 3 && seen[0] > 1 && seen[1] > 1 && seen[2] > 1, "turns, activates, column commands and answers");

    /* What class 0 may see: not the offer of class 1, nor that class 1 owns a turn. 4 times the trace is room enough. */
    kept = vigambul_extract(POLICY, COUNT(POLICY), 0, trace, COUNT(trace), log, COUNT(log), out, 4 * COUNT(trace), &status);
    expect(status == VIGAMBUL_TAKEN && kept == 4 * (COUNT(trace) - 1), "an extract of words");
    for (i = 0; i < TICKS; i++) {
        const uint32_t turn = out[4 * (OFFERS - 1 + i) + 3];
        if (i == 4 || i == 8)
            expect(turn == VIGAMBUL_TURN_HIDDEN && VIGAMBUL_TURN_STARTS(turn) == 1, "a turn that is hidden");
    }
}

/* Ranks: offers on each of them, with ten timing bytes and with an eleventh, a rank gap. */
static void ranks(void)
{
    static const uint8_t timing[] = {4, 2, 2, 2, 2, 2, 2, 2, 1, 2, 2};
    enum { TEN = sizeof POLICY, FOUR = 4, TICKS = 20 };
    uint8_t policy[TEN + 1];
    uint32_t trace[FOUR + TICKS];
    uint32_t log[4 * COUNT(trace)];
    uint32_t seen[FOUR] = {0, 0, 0, 0};
    uint32_t i;
    memcpy(policy, POLICY, sizeof POLICY);
    policy[14] = sizeof timing;
    memcpy(policy + TEN + 1 - sizeof timing, timing, sizeof timing);

    expect(VIGAMBUL_OFFER_ON(3, 2, 1, 5, 7) == 0x83950007 && VIGAMBUL_OFFER_ON(3, 0, 1, 5, 7) == VIGAMBUL_OFFER(3, 1, 5, 7), "an offer's rank");
    expect(VIGAMBUL_OFFER_ON(0, 4 + 3, 0, 0, 0) == 0x80C00000, "a rank that is too large");
    for (i = 0; i < COUNT(trace); i++)
        trace[i] = i < FOUR ? VIGAMBUL_OFFER_ON(0, i, 0, 3, i) : VIGAMBUL_TICK;
    expect(vigambul_run(POLICY, COUNT(POLICY), trace, FOUR, log, COUNT(log)) == VIGAMBUL_TAKEN, "a run with ten timing bytes");
    for (i = 0; i < FOUR; i++)
        expect(log[4 * i] == (i == 0 ? (uint32_t)VIGAMBUL_TAKEN : (uint32_t)VIGAMBUL_REFUSED_BANK_KIND), "a rank with ten timing bytes");

    expect(vigambul_run(policy, COUNT(policy), trace, COUNT(trace), log, COUNT(log)) == VIGAMBUL_TAKEN, "a run with eleven timing bytes");
    for (i = 0; i < COUNT(trace); i++) {
        const uint32_t command = log[4 * i + 1], answer = log[4 * i + 2];
        expect(log[4 * i] == VIGAMBUL_TAKEN, "a rank with eleven timing bytes");
        if (command != 0)
            expect(VIGAMBUL_RANK(command) == VIGAMBUL_TAG(command), "a command's rank");
        if (answer != 0) {
            expect(VIGAMBUL_RANK(answer) == VIGAMBUL_TAG(answer), "an answer's rank");
            seen[VIGAMBUL_RANK(answer)]++;
        }
    }
    for (i = 0; i < FOUR; i++)
        expect(seen[i] == 1, "an answer on each rank");
    policy[TEN] = 3;
    expect(vigambul_run(policy, COUNT(policy), NULL, 0, NULL, 0) == VIGAMBUL_REFUSED_TIMING, "a rank gap above the dead time");
    policy[TEN] = 0;
    expect(vigambul_run(policy, COUNT(policy), NULL, 0, NULL, 0) == VIGAMBUL_REFUSED_TIMING, "a rank gap of 0");
}

int main(void)
{
    runs();
    extracts();
    sets();
    bounds();
    recordings();
    orders();
    refusals();
    words();
    ranks();
    return failures == 0 ? 0 : 1;
}
