/* The desk: hands a request file to the gate, and writes what was read back as text. Exit status: 0 granted, 1 refused, 2 no answer:
   the file cannot be read, the output is lost, or two calls of the library do not agree. */
#include "peraduksi.h"

#include <stdbool.h>
#include <stdio.h>
#include <string.h>

static uint8_t file[PERADUKSI_MOST_BYTES + 1];
static uint8_t text[PERADUKSI_MOST_BYTES];
static uint16_t forms[PERADUKSI_FORMS_ROOM];
static uint16_t policy[PERADUKSI_POLICY_ROOM];
static uint16_t steps[PERADUKSI_STEPS_ROOM];

enum { GRANTED = 0, REFUSED = 1, NO_ANSWER = 2 };

/* Is the text that the writer makes of the tables the file's own? */
static bool written_back(struct peraduksi_counts counts, size_t length)
{
    struct peraduksi_writing written = peraduksi_write(counts, forms, PERADUKSI_FORMS_ROOM, policy, PERADUKSI_POLICY_ROOM,
                                                       steps, PERADUKSI_STEPS_ROOM, text, sizeof text);
    return written.refusal == PERADUKSI_GRANTED && written.length == length && memcmp(text, file, length) == 0;
}

/* Reads, judges and writes by one call each, and says whether that comes to what the gate answered. */
static bool agrees(struct peraduksi_printed printed, size_t length)
{
    struct peraduksi_reading read = peraduksi_read(file, length, forms, PERADUKSI_FORMS_ROOM, policy, PERADUKSI_POLICY_ROOM,
                                                   steps, PERADUKSI_STEPS_ROOM);
    if (read.refusal != PERADUKSI_GRANTED) {
        bool alike = read.refusal == printed.answer && read.place == printed.place && read.column == printed.column;
        puts(alike ? "not read" : "DIFFERENT");
        return alike;
    }
    struct peraduksi_answer judged = peraduksi_judge(read.counts, forms, PERADUKSI_FORMS_ROOM, policy, PERADUKSI_POLICY_ROOM,
                                                     steps, PERADUKSI_STEPS_ROOM);
    bool judged_alike = judged.refusal == printed.answer && judged.place == printed.place && printed.column == 0;
    bool alike = judged_alike && written_back(read.counts, length);
    puts(alike ? "written back the same" : "DIFFERENT");
    return alike;
}

int main(int argc, char **argv)
{
    if (argc > 2) {
        fprintf(stderr, "usage: desk [FILE]\n");
        return NO_ANSWER;
    }
    FILE *from = argc == 2 ? fopen(argv[1], "rb") : stdin;
    if (from == NULL) {
        perror(argv[1]);
        return NO_ANSWER;
    }
    /* One byte more than is allowed, so that a longer file is refused for what it is. */
    size_t length = fread(file, 1, sizeof file, from);
    if (ferror(from)) {
        perror("reading");
        return NO_ANSWER;
    }

    struct peraduksi_printed printed = peraduksi_gate(file, length);
    printf("answer=%u\nplace=%u\n", (unsigned)printed.answer, (unsigned)printed.place);
    printf("steps=%u\ncolumn=%u\n", (unsigned)printed.steps, (unsigned)printed.column);
    bool alike = agrees(printed, length);
    /* What stands in a buffer is not written yet. */
    if (fflush(stdout) != 0 || ferror(stdout)) {
        perror("writing");
        return NO_ANSWER;
    }
    if (!alike)
        return NO_ANSWER;
    return printed.answer == PERADUKSI_GRANTED ? GRANTED : REFUSED;
}
