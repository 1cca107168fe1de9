/* Tectavirio's proved calls, for a C host on x86-64 Linux. In the project's folder
 *
 *     mkdir -p target/staticlib && (cd crates/host_c && rt lib && cp out/libhost_c.a ../../target/staticlib/libhost.a)
 *
 * proves the calls and writes target/staticlib/libhost.a, which has all that begin with tectavirio_, and
 *
 *     cc -std=c99 -Ic -o target/check c/check.c target/staticlib/libhost.a
 *
 * builds a host with it, here c/check.c.
 *
 * The calls keep nothing from one to the next, allocate nothing and need of the C library memcpy and memset alone.
 *
 * Every call answers whatever the bytes, cells, numbers, budget and lengths are. What a pointer leads to is the host's duty, since no call can see it:
 *   - an area has as many elements as its length says, each of its type and aligned for it; an area of length 0 may have a null pointer;
 *   - `value`, `place` and `finish` each lead to one number, and are never null;
 *   - what a call may write (work, witness, out, value, place, finish) overlaps nothing else that is lent to the same call, and nobody else reads or
 *     writes it until the call returns; nobody writes the text or the cells of a table until then. */
#ifndef TECTAVIRIO_H
#define TECTAVIRIO_H

#include <stddef.h>
#include <stdint.h>

/* The bounds: how many tasks a table has, vertices and edges a task, the largest e, d, p and m, of which the least is 1 (0 for no m), how many complete
 * paths a higher task may have, and the longest input of the desk program in bytes. */
#define TECTAVIRIO_MOST_TASKS 8
#define TECTAVIRIO_MOST_VERTICES 12
#define TECTAVIRIO_MOST_EDGES 32
#define TECTAVIRIO_LARGEST_E 1000
#define TECTAVIRIO_LARGEST_D 1000
#define TECTAVIRIO_LARGEST_P 60000
#define TECTAVIRIO_LARGEST_M 1000
#define TECTAVIRIO_MOST_PATHS 64
#define TECTAVIRIO_LONGEST_INPUT 8191

/* What follows from them: as many higher tasks as a vertex can have, and as many work and witness cells as any vertex needs, 889,000 and 7,007. Most tables
 * need far fewer work cells; a vertex for which there are too few is refused, by 10, with the number that it needs. */
#define TECTAVIRIO_MOST_HIGHER (TECTAVIRIO_MOST_TASKS - 1)
#define TECTAVIRIO_MOST_WORK (TECTAVIRIO_LARGEST_D * TECTAVIRIO_MOST_HIGHER * (2 * TECTAVIRIO_MOST_PATHS - 1))
#define TECTAVIRIO_MOST_WITNESS (TECTAVIRIO_MOST_HIGHER * (1 + TECTAVIRIO_LARGEST_D))

/* The bytes of a line with so many bytes in its frame: two digits for each, and the line feed. */
#define TECTAVIRIO_LINE(frame_bytes) (2 * (frame_bytes) + 1)

/* Room for any table: as its text, each task with a line for itself, its masked length in it, and one for each vertex and edge, then the end; and as cells,
 * each task with three for itself, two for each vertex and three for each edge. */
#define TECTAVIRIO_LONGEST_TASK (TECTAVIRIO_LINE(5) + TECTAVIRIO_MOST_VERTICES * TECTAVIRIO_LINE(5) + TECTAVIRIO_MOST_EDGES * TECTAVIRIO_LINE(5))
#define TECTAVIRIO_LONGEST_TEXT (TECTAVIRIO_MOST_TASKS * TECTAVIRIO_LONGEST_TASK + TECTAVIRIO_LINE(1))
#define TECTAVIRIO_MOST_CELLS (TECTAVIRIO_MOST_TASKS * (3 + 2 * TECTAVIRIO_MOST_VERTICES + 3 * TECTAVIRIO_MOST_EDGES))

/* Room for any output of the desk program, 1,351,691 bytes: as if each vertex had all the other tasks above it, a line for its verdict and one for the
 * longest path of each of them, then the four counts. */
#define TECTAVIRIO_LONGEST_VERTEX (TECTAVIRIO_LINE(8) + TECTAVIRIO_MOST_HIGHER * TECTAVIRIO_LINE(4 + TECTAVIRIO_LARGEST_D))
#define TECTAVIRIO_LONGEST_OUTPUT (TECTAVIRIO_MOST_TASKS * TECTAVIRIO_MOST_VERTICES * TECTAVIRIO_LONGEST_VERTEX + TECTAVIRIO_LINE(5))

#ifdef __cplusplus
extern "C" {
#endif

/* The refusal sheet's numbers. Each is returned with a place: the line, counted from 1 (1 to 7, 13), zero (8, 12), the task (9), the cells needed (10, 11),
 * or the bytes needed for a text that is to be written (10). */
enum tectavirio_refusal {
    TECTAVIRIO_BAD_LINE = 1,
    TECTAVIRIO_WRONG_FRAME = 2,
    TECTAVIRIO_OUT_OF_BOUNDS = 3, /* or m above its task's largest e, at the line of the task's last vertex */
    TECTAVIRIO_DEADLINE_OVER_SEPARATION = 4, /* of an edge, or of a vertex of a ring or a gear table, each at its line */
    TECTAVIRIO_EDGE_NOT_AFTER = 5,
    TECTAVIRIO_NO_END = 6,
    TECTAVIRIO_BYTES_AFTER_END = 7,
    TECTAVIRIO_NO_SUCH_VERTEX = 8, /* or no such task */
    TECTAVIRIO_TOO_MANY_PATHS = 9,
    TECTAVIRIO_WORK_TOO_SHORT = 10, /* or the area of a text that is to be written */
    TECTAVIRIO_WITNESS_TOO_SHORT = 11,
    TECTAVIRIO_INPUT_TOO_LONG = 12, /* the desk program's alone */
    TECTAVIRIO_JOB_OVER_DEADLINE = 13 /* a vertex's e, without masked time, is above its own d, at its line; after 3, before 4 and before m's 3 */
};

/* A verdict's number. */
enum tectavirio_verdict {
    TECTAVIRIO_MEETS = 0,
    TECTAVIRIO_MISSES = 1,
    TECTAVIRIO_UNFINISHED = 2,
    TECTAVIRIO_REFUSED = 3
};

/* The text check: a refusal, 1 to 7 or 13, and its line in one number, both 0 for a readable text. In a text a task may be described as a ring or as a gear
 * table, frame 05 or 07 with a count and that many frames 06; each call that takes a text takes it as the plain task that it stands for, with m = 0. */
uint32_t tectavirio_text_check(const uint8_t *text, size_t text_bytes);

/* What the text check's number holds. */
static inline unsigned tectavirio_checked_refusal(uint32_t checked) { return checked / 65536; }
static inline unsigned tectavirio_checked_line(uint32_t checked) { return checked % 65536; }

/* The same call by itself, by document 01's name: `rt lib` in crates/reader_c writes out/libreader_c.a there, as target/staticlib/libreader.a of .ci/c-host,
 * which has it and can be linked alone or beside libhost.a. */
uint32_t text_check(const uint8_t *text, size_t text_bytes);

/* Judges one vertex of the text's table and gives its verdict's number. Task, vertex and budget are any numbers from 0 to 4,294,967,295. A lower task
 * that masks interrupts holds the job up: it is judged by e + B, B being the largest masked length m among lower tasks, 0 if none.
 *
 *   verdict      *value                                *place
 *   meets        C, the groups examined                0
 *   misses       C                                     the witness cells written
 *   unfinished   the budget                            0
 *   refused      the refusal's number, 1 to 11 or 13   what is returned with it
 *
 * The work area needs d times the sum over higher tasks of (2 x paths - 1) cells. After meets, misses and unfinished the needed cells, from the front,
 * are zero and the rest unchanged. The witness area needs h x (1 + d) cells, h being the number of higher tasks. On a miss its front holds, per
 * higher task in order, the path's length and vertices; all else in it is unchanged. The other verdicts don't touch it. No refusal changes a lent
 * area. */
uint8_t tectavirio_judge(const uint8_t *text, size_t text_bytes, uint32_t task, uint32_t vertex, uint32_t budget, uint32_t *work, size_t work_cells,
                         uint16_t *witness, size_t witness_cells, uint32_t *value, uint32_t *place);

/* Judges one vertex like tectavirio_judge, and says how late its latest is. For a choice of paths, one for each higher task, the finish is the first t
 * from 1 to d at which e + B plus the loads is at most t; the worst finish is the largest over all choices.
 *
 *   verdict      *value                                *place                       *finish
 *   meets        C, the groups examined                the witness cells written    the worst finish, in ticks
 *   misses       C                                     the witness cells written    0
 *   unfinished   the budget                            0                            0
 *   refused      the refusal's number, 1 to 11 or 13   what is returned with it     0
 *
 * C is that of this call's walk, in which a group is passed over when its own finish is no later than that of some single choice before it. On a meets
 * the front of the witness area holds the first choice that reaches the worst finish, in the same layout. All else is as above. */
uint8_t tectavirio_latest(const uint8_t *text, size_t text_bytes, uint32_t task, uint32_t vertex, uint32_t budget, uint32_t *work, size_t work_cells,
                          uint16_t *witness, size_t witness_cells, uint32_t *value, uint32_t *place, uint32_t *finish);

/* Judges a whole table, with the budget given afresh to each vertex. A readable text gives how many vertices meet, miss, are unfinished and are refused
 * by 9 or 10. A refused text gives its refusal, 1 to 7 or 13, and its line, and nothing is changed. Zeroed from the front are as many work cells as the
 * largest need among vertices not refused. */
uint64_t tectavirio_judge_table(const uint8_t *text, size_t text_bytes, uint32_t budget, uint32_t *work, size_t work_cells);

/* What a whole table's number holds: the text's refusal, 0 for a readable text, and its line, where there is a refusal; the four counts, where there is
 * none. */
static inline unsigned tectavirio_judged_refusal(uint64_t judged) { return (unsigned)(judged / 4294967296); }
static inline unsigned tectavirio_judged_line(uint64_t judged) { return (unsigned)(judged % 4294967296); }
static inline unsigned tectavirio_judged_meeting(uint64_t judged) { return (unsigned)(judged / 16777216 % 256); }
static inline unsigned tectavirio_judged_missing(uint64_t judged) { return (unsigned)(judged / 65536 % 256); }
static inline unsigned tectavirio_judged_unfinishing(uint64_t judged) { return (unsigned)(judged / 256 % 256); }
static inline unsigned tectavirio_judged_refusing(uint64_t judged) { return (unsigned)(judged % 256); }

/* Writes the desk program's output for an input from the front of `out`, and gives its length in bytes. All else in `out` is unchanged. The output is frames
 * as lines of hexadecimal, in lower case:
 *
 *   10 task vertex verdict count   a vertex; the count, or the refusal's number, in 4 bytes
 *   12 task length vertices        after a miss, for each task above it; the length in 2 bytes, one byte a vertex. Before d went up to 1,000 this was 11,
 *                                  with one byte for the length
 *   1f four counts                 the last line of a readable table
 *   1e number line                 a refused text or input; the line in 2 bytes
 *
 * The length is 0, and nothing is written, exactly if `out` has fewer bytes than these lines can take: 9 for a refused text or input; for a table 11 and,
 * for each vertex, 17 + h x (9 + 2d), h being the number of tasks above it and d its own deadline, even where this output is shorter. R1 needs room for 127
 * and gets 86. An `out` of TECTAVIRIO_LONGEST_OUTPUT bytes is never too short. */
size_t tectavirio_desk_output(const uint8_t *text, size_t text_bytes, uint8_t *out, size_t out_bytes);

/* Writes a table that is built in memory as the text that reads as this table, in frames 00 to 04, from the front of `out`. The table is one list of 16-bit
 * cells, task after task, the highest priority first, until the list ends. A task is its number of vertices, its number of edges and its masked length m, 0 for
 * none; then its vertices, e and d each; then its edges, from, to and p each, in order of from and then to, no two with both the same. A table of one task, as
 * 13 cells and as the text that is written for them:
 *
 *     2, 2, 3,    0402020003    two vertices, two edges, m = 3; with m = 0 this line is 010202
 *     4, 5,       0200040005    vertex 0: e = 4, d = 5
 *     2, 9,       0200020009    vertex 1: e = 2, d = 9
 *     0, 1, 7,    0300010007    an edge from 0 to 1, p = 7
 *     1, 0, 9     0301000009    an edge from 1 to 0, p = 9
 *                 00            the end
 *
 * Every cell counts: a list that ends inside a task has 0 for the cells that it lacks, which some rule always refuses; cells behind the last task are a
 * further task, so that zeros there are refused too; and a list that is cut between two tasks is the shorter table.
 *
 * Written, the answer is the number of bytes of the text, below 4,294,967,296, and all else in `out` is unchanged. Refused, it is the refusal's number
 * x 4,294,967,296 + what is returned with it, and nothing in `out` is changed:
 *
 *   refusal   returned with it             why
 *   2         line 1, the ninth's line     there is no task; there are more than eight
 *   3         the task's line              0 vertices or more than 12, more than 32 edges, or m above 1,000
 *   3         the vertex's line            e or d is outside its bounds, 1 to 1,000
 *   13        the vertex's line            e is above d
 *   3         the last vertex's line       m is above the task's largest e
 *   3         the edge's line              the task hasn't the vertex from or to, or p is outside 1 to 60,000
 *   4         the edge's line              d of the vertex from is above p
 *   5         the edge's line              the edge doesn't come after the one before it in its task
 *   10        the bytes needed             no rule is broken, and `out` is shorter than the text
 *
 * A line is the one that the frame would have in the text, counted from 1; the first at fault decides, and in one line what stands above goes first. An
 * `out` of TECTAVIRIO_LONGEST_TEXT bytes is never too short. */
uint64_t tectavirio_write(const uint16_t *cells, size_t cell_count, uint8_t *out, size_t out_bytes);

/* What a written table's number holds: the refusal, 0 for a table that was written, and its place, the line or the bytes needed, where there is a refusal;
 * the bytes of the text, where there is none. */
static inline unsigned tectavirio_written_refusal(uint64_t written) { return (unsigned)(written / 4294967296); }
static inline unsigned tectavirio_written_place(uint64_t written) { return (unsigned)(written % 4294967296); }
static inline size_t tectavirio_written_bytes(uint64_t written) { return (size_t)(written % 4294967296); }

#ifdef __cplusplus
}
#endif

#endif
