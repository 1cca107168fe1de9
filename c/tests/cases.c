/* The calls from C, on cases as the proved program of this name has them: the text check (c), one vertex (v), how late its latest is (f) and a whole table
 * (t) on marked areas, the desk's output (d); and a table in cells, written to a marked area (k). What is written for a case is what the second program
 * writes for it. With a word on the command line the text check is the reader's own.
 *
 * Before a judging call each cell holds its own mark, a number that no judge writes; its line has what the call left in its areas. So does each byte before
 * a table is written: its mark is larger than any byte of a text. */
#include "sequence.h"
#include "tectavirio.h"

/* As many cells are lent at most, a hundred more than any vertex needs, and so many are behind them that no call may touch; a text's area has as many bytes
 * as there are work cells. */
enum { MOST_WORK = TECTAVIRIO_MOST_WORK + 100, MOST_WITNESS = TECTAVIRIO_MOST_WITNESS + 100, BEHIND = 64 };

static const uint32_t WORK_MARK = 0xa5a50000;
static const uint16_t WITNESS_MARK = 0x5a00;

/* The first byte's mark, and how many there are; they count on, and start again. */
enum { FIRST_MARK = 0x80, MARKS = 97 };

struct one_case {
    uint8_t mode;
    const uint8_t *text;
    size_t length;
    uint8_t task, vertex;
    uint32_t budget;
    size_t work_cells, witness_cells;
};

static uint32_t work[MOST_WORK + BEHIND];
static uint16_t witness[MOST_WITNESS + BEHIND];
static uint8_t area[MOST_WORK + BEHIND];

static size_t at_most(size_t n, size_t most) {
    return n < most ? n : most;
}

static void mark_areas(const struct one_case *c) {
    for (size_t i = 0; i < c->work_cells + BEHIND; i++) {
        work[i] = WORK_MARK + (uint32_t)i;
    }
    for (size_t i = 0; i < c->witness_cells + BEHIND; i++) {
        witness[i] = (uint16_t)(WITNESS_MARK + i);
    }
}

/* The zeros at the front of the work area, and whether all behind them, lent or not, hold their marks. */
static void put_work(size_t cells) {
    size_t zeros = 0, i;
    while (zeros < cells && work[zeros] == 0) {
        zeros++;
    }
    for (i = zeros; i < cells + BEHIND && work[i] == WORK_MARK + (uint32_t)i; i++) {
    }
    put(zeros, 4);
    put(i == cells + BEHIND, 1);
}

/* The cells written at the front of the witness area, whether all behind them, lent or not, hold their marks, and the cells themselves. */
static void put_witness(size_t cells) {
    size_t written = 0, i;
    while (written < cells && witness[written] != (uint16_t)(WITNESS_MARK + written)) {
        written++;
    }
    for (i = written; i < cells + BEHIND && witness[i] == (uint16_t)(WITNESS_MARK + i); i++) {
    }
    put(written, 4);
    put(i == cells + BEHIND, 1);
    for (i = 0; i < written; i++) {
        put(witness[i], 2);
    }
}

/* The text check, by one of its two names. */
static uint32_t (*check)(const uint8_t *, size_t) = tectavirio_text_check;

/* A line: the refusal's frame, or 00 for a readable text. */
static void check_text(const struct one_case *c) {
    uint32_t checked = check(c->text, c->length);
    if (tectavirio_checked_refusal(checked) == 0) {
        puts("00");
        return;
    }
    put(0x1e, 1);
    put(tectavirio_checked_refusal(checked), 1);
    put(tectavirio_checked_line(checked), 2);
    puts("");
}

/* A vertex's numbers, with f the finish behind its place. */
static void judge_vertex(const struct one_case *c) {
    uint32_t value, place, finish, *cells = c->work_cells ? work : NULL;
    uint16_t *paths = c->witness_cells ? witness : NULL;
    uint8_t verdict;
    mark_areas(c);
    if (c->mode == 'f') {
        verdict = tectavirio_latest(c->text, c->length, c->task, c->vertex, c->budget, cells, c->work_cells, paths, c->witness_cells, &value, &place, &finish);
    } else {
        verdict = tectavirio_judge(c->text, c->length, c->task, c->vertex, c->budget, cells, c->work_cells, paths, c->witness_cells, &value, &place);
    }
    put(verdict, 1);
    put(value, 4);
    put(place, 4);
    if (c->mode == 'f') {
        put(finish, 4);
    }
    put_work(c->work_cells);
    put_witness(c->witness_cells);
    puts("");
}

/* The desk's last frame, or its frame of a refused text. */
static void judge_whole(const struct one_case *c) {
    mark_areas(c);
    uint64_t judged = tectavirio_judge_table(c->text, c->length, c->budget, c->work_cells ? work : NULL, c->work_cells);
    if (tectavirio_judged_refusal(judged) == 0) {
        put(0x1f, 1);
        put(tectavirio_judged_meeting(judged), 1);
        put(tectavirio_judged_missing(judged), 1);
        put(tectavirio_judged_unfinishing(judged), 1);
        put(tectavirio_judged_refusing(judged), 1);
    } else {
        put(0x1e, 1);
        put(tectavirio_judged_refusal(judged), 1);
        put(tectavirio_judged_line(judged), 2);
    }
    put_work(c->work_cells);
    puts("");
}

/* The output, preceded by its length in 4 bytes, high byte first. No area, and one that is a byte shorter than the output, are left alone. */
static void write_output(const struct one_case *c) {
    static uint8_t out[TECTAVIRIO_LONGEST_OUTPUT];
    size_t written = tectavirio_desk_output(c->text, c->length, out, sizeof out);
    if (tectavirio_desk_output(c->text, c->length, NULL, 0) + tectavirio_desk_output(c->text, c->length, out, written - 1) != 0) {
        puts("an output where there is no room");
    }
    for (int shift = 24; shift >= 0; shift -= 8) {
        putchar((int)(written >> shift & 0xff));
    }
    fwrite(out, 1, written, stdout);
}

static uint8_t byte_mark(size_t i) {
    return (uint8_t)(FIRST_MARK + i % MARKS);
}

/* How many bytes stand before the area's first that holds its mark, whether all behind them, lent or not, hold theirs, and, behind the line, those bytes
 * as they are. */
static void put_area(size_t bytes) {
    size_t front = 0, i;
    while (front < bytes && area[front] != byte_mark(front)) {
        front++;
    }
    for (i = front; i < bytes + BEHIND && area[i] == byte_mark(i); i++) {
    }
    put(front, 4);
    put(i == bytes + BEHIND, 1);
    puts("");
    fwrite(area, 1, front, stdout);
}

/* 00 and the bytes written, or the refusal's number and its place, and what the call left in the area. The text is the cells, each with the high byte
 * first; a last odd byte is ignored. */
static void write_table(const struct one_case *c) {
    static uint16_t cells[MOST_BYTES / 2];
    size_t count = c->length / 2, bytes = c->work_cells;
    for (size_t i = 0; i < count; i++) {
        cells[i] = (uint16_t)(c->text[2 * i] << 8 | c->text[2 * i + 1]);
    }
    for (size_t i = 0; i < bytes + BEHIND; i++) {
        area[i] = byte_mark(i);
    }
    uint64_t written = tectavirio_write(count ? cells : NULL, count, bytes ? area : NULL, bytes);
    unsigned refusal = tectavirio_written_refusal(written);
    put(refusal, 1);
    put(refusal == 0 ? tectavirio_written_bytes(written) : tectavirio_written_place(written), 4);
    put_area(bytes);
}

static void answer(const struct one_case *c) {
    switch (c->mode) {
    case 'c': check_text(c); break;
    case 'v':
    case 'f': judge_vertex(c); break;
    case 't': judge_whole(c); break;
    case 'd': write_output(c); break;
    case 'k': write_table(c); break;
    default: printf("no such mode: %02x\n", c->mode);
    }
}

int main(int count, char **words) {
    static struct sequence s;
    (void)words;
    if (count > 1) {
        check = text_check;
    }
    read_sequence(&s);
    while (s.at < s.count) {
        struct one_case c;
        c.mode = (uint8_t)next_number(&s, 1);
        c.length = next_number(&s, 4);
        c.task = (uint8_t)next_number(&s, 1);
        c.vertex = (uint8_t)next_number(&s, 1);
        c.budget = next_number(&s, 4);
        c.work_cells = at_most(next_number(&s, 4), MOST_WORK);
        c.witness_cells = at_most(next_number(&s, 4), MOST_WITNESS);
        c.text = next_text(&s, c.length);
        answer(&c);
    }
    return fflush(stdout) != 0;
}
