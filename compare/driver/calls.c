/* Makes calls of the proved library that come in as frames, and gives back what each answers and leaves behind, for a processor that the
   Rust programs of this folder cannot run on. The program `calls` of oracle/ writes the frames and compares what comes back; numbers are
   little-endian. What each call takes of the stack is measured, said at the end, and held to PERADUKSI_STACK. No header of the C library
   is needed. */
#include "peraduksi.h"

extern int dprintf(int to, const char *form, ...);
extern long read(int from, void *into, size_t most);
extern long write(int to, const void *bytes, size_t most);

enum { READ = 0, WRITE = 1, JUDGE = 2, GATE = 3, CALLS = 4 };

/* What a frame begins with; the file's bytes and the three tables follow. A table's length is in numbers. */
struct frame {
    uint32_t call;
    uint32_t bytes; /* of the file, or of the output */
    uint32_t forms, policy, steps;
    struct peraduksi_counts counts;
};

/* What comes back for it; the three tables, or the output, follow. The number is the text's length, or the gate's steps. */
struct back {
    uint32_t refusal, place, column, number;
    struct peraduksi_counts counts;
};

static uint8_t bytes[1 << 18];
static uint16_t forms[1 << 13], policy[1 << 13], steps[1 << 13];

/* The stack below this function is painted before a call, and what is painted still is counted after it. */
enum { PAINTED = 1 << 18, PAINT = 0xa5 };
static uintptr_t lowest;
static long deepest[CALLS];

__attribute__((noinline)) static void paint(void)
{
    volatile unsigned char below[PAINTED];
    for (long at = 0; at < PAINTED; at++)
        below[at] = PAINT;
    lowest = (uintptr_t)below;
}

__attribute__((noinline)) static void measure(uint32_t call)
{
    const volatile unsigned char *below = (const volatile unsigned char *)lowest;
    long at = 0;
    while (at < PAINTED && below[at] == PAINT)
        at++;
    if (PAINTED - at > deepest[call])
        deepest[call] = PAINTED - at;
}

static int take(void *into, size_t length)
{
    char *at = into;
    while (length > 0) {
        long got = read(0, at, length);
        if (got <= 0)
            return 0;
        at += got;
        length -= (size_t)got;
    }
    return 1;
}

static int give(const void *from, size_t length)
{
    const char *at = from;
    while (length > 0) {
        long put = write(1, at, length);
        if (put <= 0)
            return 0;
        at += put;
        length -= (size_t)put;
    }
    return 1;
}

static int take_tables(const struct frame *f)
{
    return f->forms <= 1 << 13 && f->policy <= 1 << 13 && f->steps <= 1 << 13 && take(forms, 2 * f->forms) &&
           take(policy, 2 * f->policy) && take(steps, 2 * f->steps);
}

static int give_tables(const struct frame *f)
{
    return give(forms, 2 * f->forms) && give(policy, 2 * f->policy) && give(steps, 2 * f->steps);
}

/* One call with nothing around it. */
__attribute__((noinline)) static struct back made(const struct frame *f)
{
    struct back back = {0, 0, 0, 0, f->counts};
    if (f->call == READ) {
        struct peraduksi_reading got = peraduksi_read(bytes, f->bytes, forms, f->forms, policy, f->policy, steps, f->steps);
        return (struct back){got.refusal, got.place, got.column, 0, got.counts};
    }
    if (f->call == WRITE) {
        struct peraduksi_writing got =
            peraduksi_write(f->counts, forms, f->forms, policy, f->policy, steps, f->steps, bytes, f->bytes);
        back.refusal = got.refusal, back.place = got.place, back.number = (uint32_t)got.length;
    } else if (f->call == JUDGE) {
        struct peraduksi_answer got = peraduksi_judge(f->counts, forms, f->forms, policy, f->policy, steps, f->steps);
        back.refusal = got.refusal, back.place = got.place, back.column = got.column;
    } else {
        struct peraduksi_printed got = peraduksi_gate(bytes, f->bytes);
        back.refusal = got.answer, back.place = got.place, back.column = got.column, back.number = got.steps;
    }
    return back;
}

/* Takes what follows a frame's beginning, makes the call, and gives back. */
static int exchange(const struct frame *f)
{
    int has_file = f->call == READ || f->call == GATE;
    if (f->call >= CALLS || f->bytes > sizeof bytes || (has_file && !take(bytes, f->bytes)) || !take_tables(f))
        return 0;
    for (size_t at = 0; f->call == WRITE && at < f->bytes; at++)
        bytes[at] = 'x';
    paint();
    struct back back = made(f);
    measure(f->call);
    return give(&back, sizeof back) && (f->call != READ || give_tables(f)) && (f->call != WRITE || give(bytes, f->bytes));
}

int main(void)
{
    struct frame f = {0};
    while (take(&f, sizeof f))
        if (!exchange(&f))
            return 1;
    dprintf(2, "stack below a call: read %ld, write %ld, judge %ld, gate %ld bytes\n", deepest[READ], deepest[WRITE], deepest[JUDGE],
            deepest[GATE]);
    for (int call = 0; call < CALLS; call++)
        if (deepest[call] > PERADUKSI_STACK)
            return 1;
    return 0;
}
