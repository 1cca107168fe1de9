/* The numbers at the border, as document 01 has them: "no such task or vertex" for every number that a table hasn't, however large; the refusals of 9 to
 * 11 by their names; the packed answers taken apart. And how late the latest is, with the paths that show it. */
#include "bench.h"
#include "tectavirio.h"

enum { WORK_CELLS = 25, WITNESS_CELLS = 14, WORK_MARK = 0x5a5a5a, WITNESS_MARK = 0x5a5a };

static uint32_t work[WORK_CELLS];
static uint16_t witness[WITNESS_CELLS];

static void mark_areas(void) {
    for (size_t i = 0; i < WORK_CELLS; i++) {
        work[i] = WORK_MARK;
    }
    for (size_t i = 0; i < WITNESS_CELLS; i++) {
        witness[i] = WITNESS_MARK;
    }
}

/* So many work cells are zero, the witness area's front holds so many of these cells, and no other cell is changed. */
static void expect_areas(size_t zeros, size_t written, const uint16_t *cells) {
    for (size_t i = 0; i < WORK_CELLS; i++) {
        expect("a work cell", work[i], i < zeros ? 0 : WORK_MARK);
    }
    for (size_t i = 0; i < WITNESS_CELLS; i++) {
        expect("a witness cell", witness[i], i < written ? cells[i] : WITNESS_MARK);
    }
}

/* A vertex, asked for with a budget and so many cells. */
struct asked {
    const char *text;
    size_t length;
    uint32_t task, vertex, budget;
    size_t work_cells, witness_cells;
};

/* What is told of it; where no finish is asked for, 0. */
struct told {
    uint8_t verdict;
    uint32_t value, place, finish;
};

static struct told judge(struct asked a) {
    struct told t = {0, WORK_MARK, WORK_MARK, 0};
    mark_areas();
    t.verdict = tectavirio_judge((const uint8_t *)a.text, a.length, a.task, a.vertex, a.budget, work, a.work_cells, witness, a.witness_cells, &t.value,
                                 &t.place);
    return t;
}

static struct told latest(struct asked a) {
    struct told t = {0, WORK_MARK, WORK_MARK, WORK_MARK};
    mark_areas();
    t.verdict = tectavirio_latest((const uint8_t *)a.text, a.length, a.task, a.vertex, a.budget, work, a.work_cells, witness, a.witness_cells, &t.value,
                                  &t.place, &t.finish);
    return t;
}

static void expect_told(struct told is, struct told should) {
    expect("the verdict", is.verdict, should.verdict);
    expect("the value", is.value, should.value);
    expect("the place", is.place, should.place);
    expect("the finish", is.finish, should.finish);
}

/* "No refusal changes a lent area." Both calls refuse the same. */
static void expect_refused(struct asked a, uint32_t refusal, uint32_t place) {
    struct told refused = {TECTAVIRIO_REFUSED, refusal, place, 0};
    expect_told(judge(a), refused);
    expect_areas(0, 0, NULL);
    expect_told(latest(a), refused);
    expect_areas(0, 0, NULL);
}

/* R1 has the tasks 0 to 2, each with vertex 0 alone. The low bits of most of these numbers are those of a task or a vertex that it has. Without its last
 * line, the tenth, it is refused by 6 whatever is asked for, at "last line plus one". */
static void judge_beyond(void) {
    static const uint32_t beyond[] = {3, 254, 255, 256, 257, 258, 65535, 65536, 65537, 16777216, 2147483648, 4294967040, 4294967295};
    size_t length = sizeof R1 - 1, cut = length - 3;
    for (size_t i = 0; i < sizeof beyond / sizeof *beyond; i++) {
        uint32_t n = beyond[i], pairs[][2] = {{n, 0}, {0, n}, {n, n}};
        for (size_t k = 0; k < 3; k++) {
            expect_refused((struct asked){R1, length, pairs[k][0], pairs[k][1], 1, WORK_CELLS, WITNESS_CELLS}, TECTAVIRIO_NO_SUCH_VERTEX, 0);
            expect_refused((struct asked){R1, cut, pairs[k][0], pairs[k][1], 1, WORK_CELLS, WITNESS_CELLS}, TECTAVIRIO_NO_END, 10);
        }
    }
}

/* R9: R7 "needs 25 work cells, 6 witness cells". */
static void judge_short(void) {
    static const char r7[] = "010301\n020003000a\n0200010002\n020004000a\n0301020002\n010100\n0200010005\n00\n";
    expect_refused((struct asked){r7, sizeof r7 - 1, 1, 0, 1, 24, 5}, TECTAVIRIO_WORK_TOO_SHORT, 25);
    expect_refused((struct asked){r7, sizeof r7 - 1, 1, 0, 1, 25, 5}, TECTAVIRIO_WITNESS_TOO_SHORT, 6);
}

/* R10: "four vertices, all 16 edges, p 10: 64 paths at horizon 21 [..]. An edgeless fifth vertex makes 65 at 21", here in task 1, under R1's first. */
static void judge_crowded(void) {
    static char text[512];
    size_t length = (size_t)sprintf(text, "010101\n0200020005\n0300000005\n010510\n");
    for (int v = 0; v < 5; v++) {
        length += (size_t)sprintf(text + length, "020001000a\n");
    }
    for (int e = 0; e < 16; e++) {
        length += (size_t)sprintf(text + length, "03%02x%02x000a\n", e / 4, e % 4);
    }
    length += (size_t)sprintf(text + length, "010100\n0200010015\n00\n");
    expect_refused((struct asked){text, length, 2, 0, 1, WORK_CELLS, WITNESS_CELLS}, TECTAVIRIO_TOO_MANY_PATHS, 1);
}

/* What is told, the work cells needed, and the witness cells written, as many as the place says. */
static void expect_latest(struct asked a, struct told should, size_t zeros, const uint16_t *cells) {
    expect_told(latest(a), should);
    expect_areas(zeros, should.place, cells);
}

/* R2: "R1 with the last e = 1: meets (tick 5: 1+2+2), C = 1", by the one choice that there is. R1's third task misses by the same paths; its first has
 * nothing above and finishes at its e. R5: above, "two vertices e 1 and e 3, no edges; judged e 2, d 5": by the path (0) it finishes at 3, by (1) at 5;
 * three groups are examined, both paths, (0) and (1). */
static void judge_latest(void) {
    static const char r2[] = "010101\n0200020005\n0300000005\n010101\n0200020007\n0300000007\n010101\n0200010006\n0300000007\n00\n";
    static const char r5[] = "010200\n0200010005\n0200030005\n010100\n0200020005\n00\n";
    static const uint16_t only[] = {2, 0, 0, 1, 0}, later[] = {1, 1};
    size_t r1_bytes = sizeof R1 - 1, r2_bytes = sizeof r2 - 1, r5_bytes = sizeof r5 - 1;
    expect_latest((struct asked){r2, r2_bytes, 2, 0, 1, WORK_CELLS, WITNESS_CELLS}, (struct told){TECTAVIRIO_MEETS, 1, 5, 5}, 12, only);
    expect_latest((struct asked){R1, r1_bytes, 2, 0, 1, WORK_CELLS, WITNESS_CELLS}, (struct told){TECTAVIRIO_MISSES, 1, 5, 0}, 12, only);
    expect_latest((struct asked){R1, r1_bytes, 0, 0, 1, WORK_CELLS, WITNESS_CELLS}, (struct told){TECTAVIRIO_MEETS, 1, 0, 2}, 0, NULL);
    expect_latest((struct asked){r5, r5_bytes, 1, 0, 3, WORK_CELLS, WITNESS_CELLS}, (struct told){TECTAVIRIO_MEETS, 3, 2, 5}, 15, later);
    expect_latest((struct asked){r5, r5_bytes, 1, 0, 2, WORK_CELLS, WITNESS_CELLS}, (struct told){TECTAVIRIO_UNFINISHED, 2, 0, 0}, 15, NULL);
}

/* Slower cradles: above a vertex of e 1, d 1,000 seven tasks that release a job of e 1 at every tick, each with one path of 1,000 vertices. One group is
 * examined, 1 + 7 ticks of work at tick 1 and 8 more at each later one; 7 x 1,000 work cells are needed, and 7 x 1,001 witness cells, which the paths fill.
 * Before the counts' line the desk writes a line for each of them: 12, the task, 1,000 in two bytes, 03e8, and the vertices. */
static void judge_slow(void) {
    static uint32_t cells[7000];
    static uint16_t paths[TECTAVIRIO_MOST_WITNESS];
    static uint8_t out[TECTAVIRIO_LONGEST_OUTPUT];
    static char text[7 * 29 + 7 + 11 + 3 + 1];
    size_t length = 0;
    for (int task = 0; task < 7; task++) {
        length += (size_t)sprintf(text + length, "010101\n0200010001\n0300000001\n");
    }
    length += (size_t)sprintf(text + length, "010100\n02000103e8\n00\n");
    expect("work cells for any vertex", TECTAVIRIO_MOST_WORK, 889000);
    expect("witness cells for any vertex", TECTAVIRIO_MOST_WITNESS, 7007);
    expect("bytes for any output", TECTAVIRIO_LONGEST_OUTPUT, 1351691);
    struct told t = {0, 0, 0, 0};
    t.verdict = tectavirio_judge((const uint8_t *)text, length, 7, 0, 1, cells, 7000, paths, 7006, &t.value, &t.place);
    expect_told(t, (struct told){TECTAVIRIO_REFUSED, TECTAVIRIO_WITNESS_TOO_SHORT, 7007, 0});
    t.verdict = tectavirio_judge((const uint8_t *)text, length, 7, 0, 1, cells, 7000, paths, 7007, &t.value, &t.place);
    expect_told(t, (struct told){TECTAVIRIO_MISSES, 1, 7007, 0});
    for (size_t i = 0; i < 7007; i++) {
        expect("a cell of a long path", paths[i], i % 1001 == 0 ? 1000 : 0);
    }
    size_t written = tectavirio_desk_output((const uint8_t *)text, length, out, sizeof out), line = TECTAVIRIO_LINE(4 + 1000);
    const uint8_t *first = out + written - TECTAVIRIO_LINE(5) - 7 * line;
    for (int task = 0; task < 7; task++) {
        static char head[8 + 1];
        sprintf(head, "12%02x03e8", (unsigned)task);
        for (size_t i = 0; i < 8; i++) {
            expect("a digit of a long path's length", first[(size_t)task * line + i], (uint8_t)head[i]);
        }
    }
}

#define VERTEX "0200010001\n"

/* Four tasks with 1, 2, 3 and 4 vertices, e 1, d 1, no edges: as many complete paths of one vertex each. With budget 1 and 8 work cells the first task's
 * vertex meets; the second's miss after one group and need 1 cell; the third's have C = 2 and need 1 + 3 cells; the fourth's need 1 + 3 + 5. */
static void take_counts(void) {
    static const char text[] = "010100\n" VERTEX "010200\n" VERTEX VERTEX "010300\n" VERTEX VERTEX VERTEX "010400\n" VERTEX VERTEX VERTEX VERTEX "00\n";
    mark_areas();
    uint64_t judged = tectavirio_judge_table((const uint8_t *)text, sizeof text - 1, 1, work, 8);
    expect("a readable text's refusal", tectavirio_judged_refusal(judged), 0);
    expect("those that meet", tectavirio_judged_meeting(judged), 1);
    expect("those that miss", tectavirio_judged_missing(judged), 2);
    expect("those unfinished", tectavirio_judged_unfinishing(judged), 3);
    expect("those refused", tectavirio_judged_refusing(judged), 4);
    expect_areas(4, 0, NULL);
}

/* The longest valid text: eight tasks with a masked length, 12 vertices and 32 edges, and the end frame. A byte after it is 7, at the line after it. */
static void take_refusals(void) {
    static char text[3963 + 2];
    size_t length = 0;
    for (int task = 0; task < TECTAVIRIO_MOST_TASKS; task++) {
        length += (size_t)sprintf(text + length, "040c200001\n");
        for (int v = 0; v < TECTAVIRIO_MOST_VERTICES; v++) {
            length += (size_t)sprintf(text + length, VERTEX);
        }
        for (int e = 0; e < 32; e++) {
            length += (size_t)sprintf(text + length, "03%02x%02x0001\n", e / TECTAVIRIO_MOST_VERTICES, e % TECTAVIRIO_MOST_VERTICES);
        }
    }
    length += (size_t)sprintf(text + length, "00\n");
    expect("the longest text's bytes", length, 3963);
    expect("its check", tectavirio_text_check((const uint8_t *)text, length), 0);
    text[length] = '\n';
    uint32_t checked = tectavirio_text_check((const uint8_t *)text, length + 1);
    uint64_t judged = tectavirio_judge_table((const uint8_t *)text, length + 1, 1, NULL, 0);
    expect("the check's refusal", tectavirio_checked_refusal(checked), TECTAVIRIO_BYTES_AFTER_END);
    expect("the check's line", tectavirio_checked_line(checked), 8 * (1 + 12 + 32) + 2);
    expect("the table's refusal", tectavirio_judged_refusal(judged), TECTAVIRIO_BYTES_AFTER_END);
    expect("the table's line", tectavirio_judged_line(judged), 8 * (1 + 12 + 32) + 2);
}

int main(void) {
    judge_beyond();
    judge_short();
    judge_crowded();
    judge_latest();
    judge_slow();
    take_counts();
    take_refusals();
    return wrong;
}
