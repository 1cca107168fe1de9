/* check FILE: checks a table's text with the proved text check, and says whether it is readable or which rule refuses it, at which line.
 * The exit status is 0 for a readable text, 1 for a refused one and 2 when there is no answer. */
#include <stdint.h>
#include <stdio.h>

#include "tectavirio.h"

/* As the desk program does, check reads a byte more than an input may have: refusal 12 is "program only: input longer than 8,191 bytes". */
enum { ROOM = TECTAVIRIO_LONGEST_INPUT + 1 };

enum { READABLE = 0, REFUSED = 1, NO_ANSWER = 2 };

/* The row of the refusal sheet that refuses a text; none for a number that no text is refused by. */
static const char *row_of(unsigned number) {
    switch (number) {
    case TECTAVIRIO_BAD_LINE: return "a line must be pairs of the digits 0-9a-f, at least one pair, and end in a line feed";
    case TECTAVIRIO_WRONG_FRAME: return "this kind of frame isn't allowed here, or its length is wrong for its kind";
    case TECTAVIRIO_OUT_OF_BOUNDS:
        return "a number is outside its bounds, an edge names a vertex that the task hasn't, or the task's masked length exceeds its largest e";
    case TECTAVIRIO_DEADLINE_OVER_SEPARATION: return "the deadline of the edge's starting vertex exceeds the separation";
    case TECTAVIRIO_EDGE_NOT_AFTER: return "the edge doesn't come after the one before it in its task";
    case TECTAVIRIO_NO_END: return "the text ends and no end frame was read";
    case TECTAVIRIO_BYTES_AFTER_END: return "there are bytes after the end frame";
    case TECTAVIRIO_JOB_OVER_DEADLINE: return "the job is longer than its own deadline";
    default: return NULL;
    }
}

/* Reads as much of the file as there is room for; gives 0 where it can't, and says why. */
static int read_file(const char *name, uint8_t *bytes, size_t room, size_t *count) {
    FILE *file = fopen(name, "rb");
    if (file != NULL) {
        *count = fread(bytes, 1, room, file);
        if (!ferror(file)) {
            fclose(file);
            return 1;
        }
    }
    fputs("check: ", stderr);
    perror(name);
    return 0;
}

static int say_checked(const uint8_t *text, size_t count) {
    if (count == ROOM) {
        printf("REFUSED (%d): the input is longer than %d bytes\n", TECTAVIRIO_INPUT_TOO_LONG, TECTAVIRIO_LONGEST_INPUT);
        return REFUSED;
    }
    uint32_t checked = tectavirio_text_check(text, count);
    unsigned number = tectavirio_checked_refusal(checked), line = tectavirio_checked_line(checked);
    if (number == 0) {
        puts("READABLE");
        return READABLE;
    }
    const char *row = row_of(number);
    if (row == NULL) {
        fprintf(stderr, "check: the text check refused by number %u at line %u, which check doesn't know\n", number, line);
        return NO_ANSWER;
    }
    printf("REFUSED (%u) at line %u: %s\n", number, line, row);
    return REFUSED;
}

int main(int count, char **words) {
    static uint8_t bytes[ROOM];
    size_t length = 0;
    if (count != 2) {
        fputs("usage: check FILE\n", stderr);
        return NO_ANSWER;
    }
    if (!read_file(words[1], bytes, sizeof bytes, &length)) {
        return NO_ANSWER;
    }
    int status = say_checked(bytes, length);
    if (fflush(stdout) != 0) {
        perror("check: standard output");
        return NO_ANSWER;
    }
    return status;
}
