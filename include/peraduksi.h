/*
 * The proved gate for programs in C, on x86-64 Linux: link libperaduksi.a.
 *
 * Every table is lent by the caller as 16-bit numbers, with its length in numbers (not in bytes): 3 a formula (kind
 * and two operands), 1 a policy line, 2 a step (kind and number). A call takes any bytes and any numbers whatever, needs no
 * check before it, and always ends with one answer. What the caller owes is what C cannot say:
 *
 *   - a pointer points to as many elements as the length after it says, aligned for them, and is never null, not even where
 *     the length is 0;
 *   - what a call writes to overlaps nothing else that the call is given;
 *   - the thread has stack left for the call, PERADUKSI_STACK bytes: a call does not ask whether it has, and one that runs past
 *     the end of its stack ends the program with a fault. The main thread has it; for a thread of yours see its stack size.
 *
 * No call allocates, keeps anything from one call to the next, or writes anywhere but to what it is lent to write to,
 * so calls on different buffers may run at the same time.
 */
#ifndef PERADUKSI_H
#define PERADUKSI_H

#include <stddef.h>
#include <stdint.h>

#ifdef __cplusplus
extern "C" {
#endif

/* What comes back, with the place that it names. */
enum peraduksi_refusal {
    PERADUKSI_GRANTED = 0,              /* granted, read or written: place 0 */
    PERADUKSI_FILE_TOO_LONG = 1,        /* file over 65,536 bytes: place 0 */
    PERADUKSI_OUT_OF_SHAPE = 2,         /* line missing, out of shape, or without LF: line, and its column */
    PERADUKSI_OUT_OF_RANGE = 3,         /* number outside its range; in tables see below: line, or 0 */
    PERADUKSI_NAMES_LATER = 4,          /* formula names itself or a later one: line */
    PERADUKSI_WRONG_CLASS = 5,          /* policy line or goal of the wrong class: line */
    PERADUKSI_BYTES_AFTER = 6,          /* bytes after the last step: line */
    PERADUKSI_DOES_NOT_FIT = 7,         /* step does not fit the obligation: step */
    PERADUKSI_NO_SUCH_NUMBER = 8,       /* no such world; or the number is no clause: step */
    PERADUKSI_FACT_ABSENT = 9,          /* needed fact absent, or another atom: step */
    PERADUKSI_PAST_LIMIT = 10,          /* step fits but would pass a limit: step */
    PERADUKSI_ALL_CLOSED = 11,          /* step after everything is closed: step */
    PERADUKSI_STILL_OPEN = 12,          /* steps end with something open: steps + 1 */
    PERADUKSI_TABLE_TOO_SHORT = 13,     /* lent table too short: place 0 */
    PERADUKSI_OUTPUT_TOO_SHORT = 14,    /* output too short: place 0 */
    PERADUKSI_REPEATED = 15,            /* formula that stands on an earlier line already: line */
    PERADUKSI_UNIT_IN_VERSION_1 = 16    /* unit told with version 1, of tables only: place 0 */
};

/* The kinds of formula, with their operands. */
enum peraduksi_form {
    PERADUKSI_FORM_P = 0,               /* atom */
    PERADUKSI_FORM_TOP = 1,
    PERADUKSI_FORM_BOT = 2,
    PERADUKSI_FORM_AND = 3,             /* formula, formula */
    PERADUKSI_FORM_OR = 4,              /* formula, formula */
    PERADUKSI_FORM_IMP = 5,             /* formula, formula */
    PERADUKSI_FORM_SAYS = 6,            /* principal, formula */
    PERADUKSI_FORM_SF = 7               /* principal, principal */
};

/* The kinds of step; all but two carry the number 0. */
enum peraduksi_step {
    PERADUKSI_STEP_AND = 0,
    PERADUKSI_STEP_OR1 = 1,
    PERADUKSI_STEP_OR2 = 2,
    PERADUKSI_STEP_IMP = 3,
    PERADUKSI_STEP_SAYS = 4,
    PERADUKSI_STEP_TOP = 5,
    PERADUKSI_STEP_SF = 6,
    PERADUKSI_STEP_USE = 7,             /* clause */
    PERADUKSI_STEP_LEFT = 8,
    PERADUKSI_STEP_RIGHT = 9,
    PERADUKSI_STEP_TO = 10,             /* world */
    PERADUKSI_STEP_HIT = 11,
    PERADUKSI_STEP_PUSH = 12,
    PERADUKSI_STEP_SPLIT = 13,
    PERADUKSI_STEP_CASE = 14,
    PERADUKSI_STEP_ABSURD = 15,
    PERADUKSI_STEP_DROP = 16,
    PERADUKSI_STEP_NOTE = 17
};

/* The versions of the request file. */
enum peraduksi_version {
    PERADUKSI_VERSION_1 = 1,            /* has no line for the logic, and means plain */
    PERADUKSI_VERSION_2 = 2             /* says its logic on its second line; every later line is one further down */
};

/* The logics by which a request is judged. */
enum peraduksi_logic {
    PERADUKSI_LOGIC_PLAIN = 0,
    PERADUKSI_LOGIC_UNIT = 1            /* with the unit law, by which p implies A says p; of version 2 only */
};

/* What is allowed. */
enum peraduksi_limit {
    PERADUKSI_MOST_BYTES = 65536,       /* of a file */
    PERADUKSI_MOST_PRINCIPALS = 16,
    PERADUKSI_MOST_ATOMS = 256,
    PERADUKSI_MOST_FORMULAS = 1024,
    PERADUKSI_MOST_POLICY_LINES = 128,
    PERADUKSI_MOST_STEPS = 2048,
    PERADUKSI_MOST_STEP_NUMBER = 65535, /* that `use` or `to` takes */
    PERADUKSI_MOST_WORLDS = 64,         /* of a sequent, root included */
    PERADUKSI_MOST_CLAUSES = 256,       /* of a sequent, policy lines included */
    PERADUKSI_MOST_OPEN = 256,          /* obligations: current, waiting, and subgoals met */
    PERADUKSI_MOST_CHUNKS = 16          /* of an obligation */
};

/* The length that each lent table has at least. */
enum peraduksi_room {
    PERADUKSI_FORMS_ROOM = 3 * PERADUKSI_MOST_FORMULAS,
    PERADUKSI_POLICY_ROOM = PERADUKSI_MOST_POLICY_LINES,
    PERADUKSI_STEPS_ROOM = 2 * PERADUKSI_MOST_STEPS
};

/* Stack that is enough below any call, in bytes; the gate takes the most, some 94,500. */
enum peraduksi_stack {
    PERADUKSI_STACK = 98304
};

/* The version, the logic, the counts and the goal that go with lent tables. A version that is neither of the two is 3 at line 1; a
   logic that is neither of the two is taken as unit, and none such comes back. */
struct peraduksi_counts {
    uint16_t version;
    uint16_t logic;
    uint16_t principals;
    uint16_t atoms;
    uint16_t formulas;
    uint16_t policy;
    uint16_t goal;
    uint16_t steps;
};

/* The column is that of PERADUKSI_OUT_OF_SHAPE, from 1: the first byte of the line at which it can no longer be a line of the right
   shape, the LF counted as a byte, or one past the last where the file ends too early; 0 with every other answer. The counts,
   with version and logic, are all 0 after a refusal. */
struct peraduksi_reading {
    uint16_t refusal;
    uint32_t place;
    uint16_t column;
    struct peraduksi_counts counts;
};

/* The length is that of the text, 0 after a refusal. */
struct peraduksi_writing {
    uint16_t refusal;
    uint32_t place;
    size_t length;
};

/* The column is 0: no line of a text is out of shape here. */
struct peraduksi_answer {
    uint16_t refusal;
    uint32_t place;
    uint16_t column;
};

/* The four numbers that the gate program prints; steps is 0 if reading is refused, and the column is the reader's. */
struct peraduksi_printed {
    uint16_t answer;
    uint32_t place;
    uint16_t steps;
    uint16_t column;
};

/* Reads a request file into the three tables. Entries past the last one read are 0; after a refusal every table is all 0. */
struct peraduksi_reading peraduksi_read(
    const uint8_t *text, size_t text_length,
    uint16_t *forms, size_t forms_length,
    uint16_t *policy, size_t policy_length,
    uint16_t *steps, size_t steps_length);

/* Of tables that a caller made, writer and judge ask what the reader's have: a known kind, and 0 for an operand or a number that
   its kind lacks, or 3 at the line that the text would have; and 0 in every entry past the counts, or 3 at place 0. Unit told with
   version 1 is 16, after 13 and before all else. */

/* Writes the request in the tables as text. Bytes past the text are 0; after a refusal the whole output is 0. */
struct peraduksi_writing peraduksi_write(
    struct peraduksi_counts counts,
    const uint16_t *forms, size_t forms_length,
    const uint16_t *policy, size_t policy_length,
    const uint16_t *steps, size_t steps_length,
    uint8_t *out, size_t out_length);

/* Judges the request in the tables. Writes nowhere. */
struct peraduksi_answer peraduksi_judge(
    struct peraduksi_counts counts,
    const uint16_t *forms, size_t forms_length,
    const uint16_t *policy, size_t policy_length,
    const uint16_t *steps, size_t steps_length);

/* Reads and judges a request file. */
struct peraduksi_printed peraduksi_gate(const uint8_t *file, size_t file_length);

#ifdef __cplusplus
}
#endif

#endif
