/* A table built in cells, as a C host writes it by wish 4 of document 02: R1, byte for byte, then checked and judged as it was written; the longest table;
 * areas around what is needed; and every refusal, with its line counted by hand. */
#include "bench.h"
#include "tectavirio.h"

enum { WORK_CELLS = 8192, BUDGET = 100000, BEHIND = 64, MARK = 0x5a };

/* The area, and bytes behind it that no call may touch. No byte of a text is the mark. */
static uint8_t out[TECTAVIRIO_LONGEST_TEXT + BEHIND];

/* A table, as many cells as it has. */
struct table {
    const uint16_t *cells;
    size_t count;
};

/* R1, a task in each row: one vertex, one edge, no masked length; e, d; from, to, p. */
static const uint16_t R1_CELLS[] = {
    1, 1, 0, 2, 5, 0, 0, 5, /* lines 1 to 3 */
    1, 1, 0, 2, 7, 0, 0, 7, /* lines 4 to 6 */
    1, 1, 0, 2, 6, 0, 0, 7, /* lines 7 to 9; the end's is 10 */
};

/* The header's example: line 1 is the task's, 2 and 3 are its vertices', 4 and 5 its edges'. */
static const uint16_t PAIR_CELLS[] = {2, 2, 3, 4, 5, 2, 9, 0, 1, 7, 1, 0, 9};
static const char PAIR[] = "0402020003\n0200040005\n0200020009\n0300010007\n0301000009\n00\n";

static const struct table r1 = {R1_CELLS, sizeof R1_CELLS / sizeof *R1_CELLS};
static const struct table pair = {PAIR_CELLS, sizeof PAIR_CELLS / sizeof *PAIR_CELLS};

/* Writes to as many marked bytes; a null pointer for none. */
static uint64_t write_marked(struct table t, size_t bytes) {
    for (size_t i = 0; i < sizeof out; i++) {
        out[i] = MARK;
    }
    return tectavirio_write(t.cells, t.count, bytes ? out : NULL, bytes);
}

/* The area's front holds so many bytes of the text, and no other byte is changed. */
static void expect_area(const char *text, size_t written) {
    size_t others = 0;
    for (size_t i = 0; i < sizeof out; i++) {
        others += out[i] != (i < written ? (uint8_t)text[i] : MARK);
    }
    expect("the bytes that hold something else", others, 0);
}

/* "A refusal changes nothing." */
static void expect_refused(struct table t, size_t bytes, unsigned refusal, unsigned place) {
    uint64_t written = write_marked(t, bytes);
    expect("the refusal", tectavirio_written_refusal(written), refusal);
    expect("its place", tectavirio_written_place(written), place);
    expect_area(NULL, 0);
}

/* "A table that breaks a rule gets 2 to 5", or 13 by wish 6, "then 10": in an area of any length. */
static void expect_broken(struct table t, unsigned refusal, unsigned line) {
    expect_refused(t, 0, refusal, line);
    expect_refused(t, TECTAVIRIO_LONGEST_TEXT, refusal, line);
}

/* "Then 10 with the bytes needed", here in no area and in one a byte too short; "else the rest of the area is unchanged", of an exact one and of longer
 * ones. */
static void expect_written(struct table t, const char *text, size_t length) {
    size_t areas[] = {length, length + 1, TECTAVIRIO_LONGEST_TEXT};
    expect_refused(t, 0, TECTAVIRIO_WORK_TOO_SHORT, (unsigned)length);
    expect_refused(t, length - 1, TECTAVIRIO_WORK_TOO_SHORT, (unsigned)length);
    for (size_t i = 0; i < 3; i++) {
        uint64_t written = write_marked(t, areas[i]);
        expect("no refusal", tectavirio_written_refusal(written), 0);
        expect("the bytes of the text", tectavirio_written_bytes(written), length);
        expect_area(text, length);
    }
}

/* R1 has 90 bytes. As it stands in the area it is readable, and two meet and one misses. */
static void write_r1(void) {
    static uint32_t work[WORK_CELLS];
    expect("R1's bytes", sizeof R1 - 1, 90);
    expect_written(r1, R1, 90);
    size_t length = tectavirio_written_bytes(write_marked(r1, 90));
    expect("the text's check", tectavirio_text_check(out, length), 0);
    uint64_t judged = tectavirio_judge_table(out, length, BUDGET, work, WORK_CELLS);
    expect("the table's refusal", tectavirio_judged_refusal(judged), 0);
    expect("those that meet", tectavirio_judged_meeting(judged), 2);
    expect("those that miss", tectavirio_judged_missing(judged), 1);
    expect("those unfinished", tectavirio_judged_unfinishing(judged), 0);
    expect("those refused", tectavirio_judged_refusing(judged), 0);
}

/* "No task: 2, line 1", with null pointers and in an area. */
static void write_nothing(void) {
    uint64_t written = tectavirio_write(NULL, 0, NULL, 0);
    expect("no table's refusal", tectavirio_written_refusal(written), TECTAVIRIO_WRONG_FRAME);
    expect("no table's line", tectavirio_written_place(written), 1);
    expect_broken((struct table){NULL, 0}, TECTAVIRIO_WRONG_FRAME, 1);
    expect_broken((struct table){R1_CELLS, 0}, TECTAVIRIO_WRONG_FRAME, 1);
}

/* "More than eight: 2, the ninth's line". A task here has one vertex and no edge, so two lines: eight have 16, and the ninth's is 17, whatever it holds of
 * its own. A fault in the eighth's vertex, line 16, comes first. */
static void write_ninth(void) {
    static uint16_t cells[9 * 5];
    static char text[8 * 18 + 3 + 1];
    size_t length = 0;
    for (size_t i = 0; i < 9; i++) {
        uint16_t *task = cells + 5 * i;
        task[0] = task[3] = task[4] = 1;
        if (i < 8) {
            length += (size_t)sprintf(text + length, "010100\n0200010001\n");
        }
    }
    length += (size_t)sprintf(text + length, "00\n");
    expect_written((struct table){cells, 8 * 5}, text, length);
    expect_broken((struct table){cells, 9 * 5}, TECTAVIRIO_WRONG_FRAME, 17);
    expect_broken((struct table){cells, 8 * 5 + 1}, TECTAVIRIO_WRONG_FRAME, 17);
    cells[8 * 5] = 13;
    expect_broken((struct table){cells, 9 * 5}, TECTAVIRIO_WRONG_FRAME, 17);
    cells[7 * 5 + 3] = 0;
    expect_broken((struct table){cells, 9 * 5}, TECTAVIRIO_OUT_OF_BOUNDS, 16);
}

/* Another number in one cell, and the line that is then refused. */
struct change {
    size_t at;
    uint16_t number;
    unsigned line;
};

static void expect_changed(struct table t, unsigned refusal, const struct change *changes, size_t count) {
    static uint16_t cells[TECTAVIRIO_MOST_CELLS];
    for (size_t i = 0; i < t.count; i++) {
        cells[i] = t.cells[i];
    }
    for (size_t i = 0; i < count; i++) {
        struct change c = changes[i];
        cells[c.at] = c.number;
        expect_broken((struct table){cells, t.count}, refusal, c.line);
        cells[c.at] = t.cells[c.at];
    }
}

/* R1's second task has the cells 8 to 15: line 4 is the task's, 5 its vertex's (e 2, d 7), 6 its edge's (from 0 to 0, p 7). In turn: 0, 13 and 257 vertices;
 * 33 and 257 edges; m beyond 1,000; m above e, at its last vertex's line; e and d; then from, to and p, 256 being 0 in its low byte. A d of 8 is above p,
 * and 7 is above a p of 6. An e of 8 is above d, and so is 1,000, which is in its bounds; 2 is above a d of 1. */
static void change_r1(void) {
    static const struct change outside[] = {
        {8, 0, 4},     {8, 13, 4}, {8, 257, 4},  {9, 33, 4}, {9, 257, 4},  {10, 1001, 4}, {10, 65535, 4}, {10, 3, 5}, {10, 1000, 5}, {11, 0, 5},
        {11, 1001, 5}, {12, 0, 5}, {12, 1001, 5}, {13, 1, 6}, {13, 256, 6}, {14, 1, 6},    {14, 256, 6},   {15, 0, 6}, {15, 60001, 6},
    };
    static const struct change over[] = {{12, 8, 6}, {15, 6, 6}}, slips[] = {{11, 8, 5}, {11, 1000, 5}, {12, 1, 5}};
    expect_changed(r1, TECTAVIRIO_OUT_OF_BOUNDS, outside, sizeof outside / sizeof *outside);
    expect_changed(r1, TECTAVIRIO_DEADLINE_OVER_SEPARATION, over, sizeof over / sizeof *over);
    expect_changed(r1, TECTAVIRIO_JOB_OVER_DEADLINE, slips, sizeof slips / sizeof *slips);
}

/* The pair's largest e is vertex 0's, 4. An m of 5, or an e of 2 there under the m of 3, is refused at the last vertex's line, 3. The edges (0, 1) and (1, 0)
 * are in order; at line 5 (0, 0) doesn't come after (0, 1), nor (1, 0) after (1, 1), nor (0, 1) after itself. In line 5 a p of 8 is below vertex 1's d. In
 * one line 3 goes before 4 and 4 before 5: of (0, 0) with a p of 0, and of 4, which is below vertex 0's d, the order is the last thing to be refused. With
 * an e of 10 vertex 1, line 3, is longer than its deadline of 9, also where its task's m of 11 is above every e. */
static void change_pair(void) {
    static const struct change outside[] = {{2, 5, 3}, {3, 2, 3}, {10, 2, 5}}, over[] = {{12, 8, 5}}, order[] = {{10, 0, 5}}, slips[] = {{5, 10, 3}};
    static const uint16_t falling[] = {2, 2, 3, 4, 5, 2, 9, 1, 1, 9, 1, 0, 9}, twice[] = {2, 2, 3, 4, 5, 2, 9, 0, 1, 7, 0, 1, 7};
    static const uint16_t three[] = {2, 2, 3, 4, 5, 2, 9, 0, 1, 7, 0, 0, 0}, four[] = {2, 2, 3, 4, 5, 2, 9, 0, 1, 7, 0, 0, 4};
    static const uint16_t masked[] = {2, 2, 11, 4, 5, 10, 9, 0, 1, 7, 1, 0, 9};
    expect_written(pair, PAIR, sizeof PAIR - 1);
    expect_changed(pair, TECTAVIRIO_OUT_OF_BOUNDS, outside, 3);
    expect_changed(pair, TECTAVIRIO_DEADLINE_OVER_SEPARATION, over, 1);
    expect_changed(pair, TECTAVIRIO_EDGE_NOT_AFTER, order, 1);
    expect_changed(pair, TECTAVIRIO_JOB_OVER_DEADLINE, slips, 1);
    expect_broken((struct table){masked, 13}, TECTAVIRIO_JOB_OVER_DEADLINE, 3);
    expect_broken((struct table){falling, 13}, TECTAVIRIO_EDGE_NOT_AFTER, 5);
    expect_broken((struct table){twice, 13}, TECTAVIRIO_EDGE_NOT_AFTER, 5);
    expect_broken((struct table){three, 13}, TECTAVIRIO_OUT_OF_BOUNDS, 5);
    expect_broken((struct table){four, 13}, TECTAVIRIO_DEADLINE_OVER_SEPARATION, 5);
}

/* R1's list, cut. Behind 8 cells and behind 16 a task ends: one task is 29 bytes, two are 58, and the end's line 3. Behind 9 to 12 the second task's vertex,
 * line 5, has no e or no d; behind 13 to 15 its edge, line 6, has no p. Behind one cell it is the first task's vertex, line 2. */
static void cut_r1(void) {
    static const unsigned lines[] = {5, 5, 5, 5, 6, 6, 6};
    static char text[sizeof R1];
    for (size_t tasks = 1; tasks < 3; tasks++) {
        sprintf(text, "%.*s00\n", (int)(29 * tasks), R1);
        expect_written((struct table){R1_CELLS, 8 * tasks}, text, 29 * tasks + 3);
    }
    for (size_t i = 0; i < 7; i++) {
        expect_broken((struct table){R1_CELLS, 9 + i}, TECTAVIRIO_OUT_OF_BOUNDS, lines[i]);
    }
    expect_broken((struct table){R1_CELLS, 1}, TECTAVIRIO_OUT_OF_BOUNDS, 2);
}

/* "The longest text is now 3,963 bytes": eight tasks with 12 vertices, 32 edges and a masked length, here with every number as large as a written
 * table can have it. A task has 3 + 12 x 2 + 32 x 3 = 123 cells and 1 + 12 + 32 = 45 lines. */
static struct table fill_longest(char *text, size_t *length) {
    static uint16_t cells[8 * 123];
    uint16_t *next = cells;
    for (int task = 0; task < 8; task++) {
        *next++ = 12, *next++ = 32, *next++ = 1000;
        *length += (size_t)sprintf(text + *length, "040c2003e8\n");
        for (int v = 0; v < 12; v++) {
            *next++ = 1000, *next++ = 1000;
            *length += (size_t)sprintf(text + *length, "0203e803e8\n");
        }
        for (int e = 0; e < 32; e++) {
            *next++ = (uint16_t)(e / 12), *next++ = (uint16_t)(e % 12), *next++ = 60000;
            *length += (size_t)sprintf(text + *length, "03%02x%02xea60\n", e / 12, e % 12);
        }
    }
    *length += (size_t)sprintf(text + *length, "00\n");
    return (struct table){cells, (size_t)(next - cells)};
}

/* The eighth task's cells start at 7 x 123 = 861, its lines at 7 x 45 + 1 = 316. Its last vertex has the cells 886 and 887 and line 316 + 12 = 328, its last
 * edge, from 2 to 7, the cells 981 to 983 and line 316 + 44 = 360. The edge before it is from 2 to 6. One past each bound, or one out of order, is refused
 * there. */
static void write_longest(void) {
    static char text[3963 + 1];
    static const struct change outside[] = {{861, 13, 316},  {862, 33, 316}, {863, 1001, 316}, {886, 1001, 328}, {887, 1001, 328},
                                            {981, 256, 360}, {981, 12, 360}, {982, 12, 360},   {983, 60001, 360}};
    static const struct change over[] = {{983, 999, 360}}, order[] = {{981, 1, 360}, {982, 6, 360}}, slips[] = {{887, 999, 328}};
    size_t length = 0;
    struct table longest = fill_longest(text, &length);
    expect("the longest text's bytes", length, 3963);
    expect("room for it", TECTAVIRIO_LONGEST_TEXT, 3963);
    expect("its table's cells", longest.count, 984);
    expect("room for them", TECTAVIRIO_MOST_CELLS, 984);
    expect_written(longest, text, length);
    expect_changed(longest, TECTAVIRIO_OUT_OF_BOUNDS, outside, sizeof outside / sizeof *outside);
    expect_changed(longest, TECTAVIRIO_DEADLINE_OVER_SEPARATION, over, 1);
    expect_changed(longest, TECTAVIRIO_EDGE_NOT_AFTER, order, 2);
    expect_changed(longest, TECTAVIRIO_JOB_OVER_DEADLINE, slips, 1);
}

int main(void) {
    write_r1();
    write_nothing();
    write_ninth();
    change_r1();
    change_pair();
    cut_r1();
    write_longest();
    return wrong;
}
