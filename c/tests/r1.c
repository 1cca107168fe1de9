/* R1 of the bench examples in the document's numbers, as a C host judges it: the third task's vertex misses, after one group, by the paths (0, 0) and
 * (0). The same with its tasks as rings and a gear table of one vertex each, and lines of rings and gear tables that are refused; R4, which is refused,
 * too. And the empty text, lent as a null pointer: refusal 6, line 1. */
#include "bench.h"
#include "tectavirio.h"

/* h x (1 + d), with two higher tasks and d = 6. */
enum { WITNESS_CELLS = 2 * (1 + 6), WORK_CELLS = 8192, BUDGET = 100000 };

/* A vertex with a self-edge is a ring of one, and a gear table of one. */
static const char VENDORS_R1[] = "0501\n06000200050005\n"
                                 "0701\n06000200070007\n"
                                 "0501\n06000200060007\n"
                                 "00\n";

static void judge_r1(const char *r1, size_t length) {
    static uint32_t work[WORK_CELLS];
    uint16_t witness[WITNESS_CELLS] = {0}, paths[] = {2, 0, 0, 1, 0};
    uint32_t groups, cells;
    const uint8_t *text = (const uint8_t *)r1;
    expect("the check", tectavirio_text_check(text, length), 0);
    expect("the verdict", tectavirio_judge(text, length, 2, 0, BUDGET, work, WORK_CELLS, witness, WITNESS_CELLS, &groups, &cells), TECTAVIRIO_MISSES);
    expect("the groups", groups, 1);
    expect("the witness cells", cells, 5);
    for (size_t i = 0; i < 5; i++) {
        expect("a witness cell", witness[i], paths[i]);
    }
    /* 1f02010000: two meet, one misses */
    uint64_t judged = tectavirio_judge_table(text, length, BUDGET, work, WORK_CELLS);
    expect("the table's refusal", tectavirio_judged_refusal(judged), 0);
    expect("those that meet", tectavirio_judged_meeting(judged), 2);
    expect("those that miss", tectavirio_judged_missing(judged), 1);
    expect("those unfinished", tectavirio_judged_unfinishing(judged), 0);
    expect("those refused", tectavirio_judged_refusing(judged), 0);
}

/* The desk's output. Its longest has 11 bytes for the counts, 17 for each verdict, and for each task above a vertex the line of a path of d vertices, 9 + 2d:
 * 11 + 17 + (17 + 23) + (17 + 2 x 21) = 127. In less nothing is written. */
static void write_r1(const char *r1, size_t length) {
    static const char lines[] = "1000000000000001\n1001000000000001\n1002000100000001\n120000020000\n1201000100\n1f02010000\n";
    uint8_t out[127] = {0};
    expect("bytes without room", tectavirio_desk_output((const uint8_t *)r1, length, out, 126), 0);
    expect("a byte without room", out[0], 0);
    expect("the output's bytes", tectavirio_desk_output((const uint8_t *)r1, length, out, 127), sizeof lines - 1);
    for (size_t i = 0; i < sizeof lines; i++) {
        expect("a byte of the output, or the one behind it", out[i], (uint8_t)lines[i]);
    }
}

static void refuse(const char *text, size_t length, unsigned refusal, unsigned line) {
    uint32_t checked = tectavirio_text_check((const uint8_t *)text, length);
    expect("a line's refusal", tectavirio_checked_refusal(checked), refusal);
    expect("the refused line", tectavirio_checked_line(checked), line);
}

/* A count of 13; d 8 with p 7; a vertex without its separation. */
static void refuse_vendors_lines(void) {
    static const char count[] = "010100\n0200010001\n070d\n00\n", late[] = "0501\n06000200080007\n00\n", plain[] = "0501\n0200020008\n00\n";
    refuse(count, sizeof count - 1, TECTAVIRIO_OUT_OF_BOUNDS, 3);
    refuse(late, sizeof late - 1, TECTAVIRIO_DEADLINE_OVER_SEPARATION, 2);
    refuse(plain, sizeof plain - 1, TECTAVIRIO_WRONG_FRAME, 2);
}

/* R4: "refusal 13, line 2"; and in a vendor's line, before 4, which d 8 with p 7 would get. */
static void refuse_slips(void) {
    static const char r4[] = "010100\n0200030002\n00\n", ring[] = "0501\n06000900080007\n00\n";
    refuse(r4, sizeof r4 - 1, TECTAVIRIO_JOB_OVER_DEADLINE, 2);
    refuse(ring, sizeof ring - 1, TECTAVIRIO_JOB_OVER_DEADLINE, 2);
    uint64_t judged = tectavirio_judge_table((const uint8_t *)r4, sizeof r4 - 1, BUDGET, NULL, 0);
    expect("R4's refusal", tectavirio_judged_refusal(judged), TECTAVIRIO_JOB_OVER_DEADLINE);
    expect("R4's line", tectavirio_judged_line(judged), 2);
}

static void judge_nothing(void) {
    uint32_t number, line;
    expect("no text's verdict", tectavirio_judge(NULL, 0, 0, 0, BUDGET, NULL, 0, NULL, 0, &number, &line), TECTAVIRIO_REFUSED);
    expect("no text's refusal", number, TECTAVIRIO_NO_END);
    expect("no text's line", line, 1);
    uint32_t checked = tectavirio_text_check(NULL, 0);
    expect("the check's refusal", tectavirio_checked_refusal(checked), TECTAVIRIO_NO_END);
    expect("the check's line", tectavirio_checked_line(checked), 1);
    uint64_t judged = tectavirio_judge_table(NULL, 0, BUDGET, NULL, 0);
    expect("the table's refusal", tectavirio_judged_refusal(judged), TECTAVIRIO_NO_END);
    expect("the table's line", tectavirio_judged_line(judged), 1);
}

int main(void) {
    judge_r1(R1, sizeof R1 - 1);
    judge_r1(VENDORS_R1, sizeof VENDORS_R1 - 1);
    write_r1(R1, sizeof R1 - 1);
    write_r1(VENDORS_R1, sizeof VENDORS_R1 - 1);
    refuse_vendors_lines();
    refuse_slips();
    judge_nothing();
    return wrong;
}
