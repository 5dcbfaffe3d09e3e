/* Values in WGSL's memory layout: vireo_write_layout, vireo_read_layout and vireo_layout_of against document 02.
 *
 *   layout CALLS SEED            WGSL's own table and what else is written down here, then so many drawn calls
 *   layout --planted CALLS SEED  the same with each fault of mislaid.h: exits 1 where a check does not notice the
 *                                fault that it is there for
 *
 * What is due of a call laid.h works out, by rules of its own. Target, arguments or memory, and buffer of a call lie
 * each beside a page that may not be touched: before it or, half of the time, behind it, with guard bytes on the
 * other side; the buffer is filled with drawn bytes before. The types and values are those of drawn.h; the damaged
 * records are made by damage.h of these and of the lists on standard input. Prints counts, and the first ten faults
 * as hex (entry, target, arguments or memory, length of the buffer); exits 1 where there is one, or where something
 * that the calls must show (met.h) did not come up in REQUIRED calls or more.
 */
#include "records.h"
#include "reader.h"
#include "damage.h"
#include "guarded.h"
#include "laid.h"
#include "drawn.h"
#include "mistaken.h"
#include "met.h"

enum check { ENDS, KEEPS, REFUSED, NUMBER, SIZE, ALIGN, BYTES, PAST, EXACT, SLICE, PADDING, BACK, TABLE, CHECKS };
#include "checks.h"
#include "mislaid.h"

static const struct said checks[CHECKS] = {
    [ENDS] = {"ends", "the call ends and touches nothing outside what it is given"},
    [KEEPS] = {"keeps", "target, arguments and memory are as they were"},
    [REFUSED] = {"refused", "a refusal leaves the buffer and its guard, and carries nothing but its number"},
    [NUMBER] = {"number", "a call is refused where document 02 says so, with its number: 1 or 2, then 25, 26, 22"},
    [SIZE] = {"size", "what is written or told is as long as the type's size, what is read as the value's record"},
    [ALIGN] = {"align", "the alignment told is the type's"},
    [BYTES] = {"bytes", "each byte is the one due: every scalar where it belongs and padding zero, or the value's record"},
    [PAST] = {"past", "every byte past the result is as it was, and so is the guard"},
    [EXACT] = {"exact", "a buffer of just the result's length does, so does a longer one, and one a byte shorter is 22"},
    [SLICE] = {"slice", "memory of another length than the size is 26: a byte shorter or longer, and any where the size is past 64 bits"},
    [PADDING] = {"padding", "whatever the padding holds, the same value is read"},
    [BACK] = {"back", "a value written and read is the same value; bytes read and written are the same, with zero for padding"},
    [TABLE] = {"table", "WGSL's table, its two structs and what else is written down here are answered with those numbers"},
};

enum { REQUIRED = 200000 };

/* the calls so far, and what they go through: the entries as they are, or wrong as in mislaid.h */
static uint64_t calls;
static struct told (*enter)(struct lent_call) = right;

/* ---- one call ---- */

enum { AT_TARGET, AT_GIVEN, AT_OUT, PLACES };

/* the last call, what came of it, and the buffer after it */
static struct asked last;
static struct told came;
static const uint8_t *result;

static void print_told(const char *what, struct told t)
{
    printf("; %s refusal %" PRIu64 " value %" PRIu64 " align %" PRIu64, what, t.answer.refusal, t.answer.value, t.align);
}

/* what is found of the last call */
static void hold(enum check check, int good)
{
    held[check]++;
    if (good) return;
    faults[check]++;
    if (shown++ >= 10) return;
    printf("against '%s': %s", checks[check].name, laying_names[last.entry]);
    print_row(last.target), print_row(last.given);
    printf(" %zu", last.room), print_told("due", due.told), print_told("came", came), printf("\n");
    fflush(stdout);
}

static int numbers_only(struct told t) { return !t.answer.wanted && !t.answer.given; }

static void judge(struct lain out)
{
    uint64_t n = due.told.answer.value;
    hold(NUMBER, came.answer.refusal == due.told.answer.refusal);
    if (came.answer.refusal) hold(REFUSED, kept_as(out, before) && !came.answer.value && numbers_only(came) && !came.align);
    if (came.answer.refusal || due.told.answer.refusal) return;
    hold(SIZE, came.answer.value == n && numbers_only(came));
    hold(ALIGN, came.align == due.told.align);
    if (last.entry == OF) return;
    hold(BYTES, !memcmp(out.at, due.bytes, n));
    hold(PAST, guard_kept(out) && !memcmp(out.at + n, before + n, last.room - n));
}

/* makes a call, and judges it; gives whether it was accepted, as it should have been */
static int ask(enum laying entry, struct row type, struct row given, size_t room)
{
    last = (struct asked){entry, type, given, room}, came = (struct told){{0, 0, 0, 0}, 0}, result = 0, calls++;
    work_out(&last);
    struct lain t = lay(AT_TARGET, type.at, type.n), g = lay(AT_GIVEN, given.at, given.n), out = lay(AT_OUT, before, room);
    note(&last, t.ends, g.ends, out.ends);
    if (sigsetjmp(back, 0)) {
        inside = 0;
        hold(ENDS, 0);
        return 0;
    }
    inside = 1;
    came = enter((struct lent_call){entry, t.at, type.n, g.at, given.n, out.at, room});
    inside = 0, result = out.at;
    hold(ENDS, 1);
    hold(KEEPS, kept_as(t, type.at) && kept_as(g, given.at));
    judge(out);
    return !came.answer.refusal && !due.told.answer.refusal && came.answer.value == due.told.answer.value;
}

static const struct row none = {target, 0};

/* whether the last call gave just these bytes */
static int gave(const void *bytes, size_t n)
{
    return result && !came.answer.refusal && came.answer.value == n && !memcmp(result, bytes, n);
}

/* ---- calls that are drawn ---- */

static uint8_t memory[MOST], record[MOST], used[MOST];

/* a type with a layout in `target`, whose values are not too long here */
static struct row draw_type(void)
{
    struct row type = {target, 0};
    const uint8_t *t;
    do type.n = some_laid_type(target), t = target; while (value_length(&t) > MOST / 4);
    return type;
}
static struct row draw_value(void)
{
    const uint8_t *t = target;
    return (struct row){args, value_made(&t, args)};
}

/* the entry with a buffer that is just long enough, a byte short of it and a byte longer; the first comes last, so
 * that its result can be looked at */
static int with_rooms(enum laying entry, struct row type, struct row given, size_t n)
{
    ask(entry, type, given, n - 1), hold(EXACT, came.answer.refusal == 22);
    ask(entry, type, given, n + 1), hold(EXACT, !came.answer.refusal && came.answer.value == n);
    int done = ask(entry, type, given, n);
    hold(EXACT, !came.answer.refusal && came.answer.value == n);
    return done;
}

/* which bytes of the memory of the last call's value belong to scalars */
static void mark_used(size_t size)
{
    memset(used, 0, size);
    for (size_t i = 0; i < scalars_n; i++) memset(used + scalars[i].memory, 1, scalars[i].size);
}

/* other bytes in the padding; gives whether there is any */
static int draw_padding(size_t size)
{
    int any = 0;
    for (size_t i = 0; i < size; i++) if (!used[i]) memory[i] = (uint8_t)draw(), any = 1;
    return any;
}

/* memory that is a byte shorter or longer than the size; 26 comes before 22 */
static void other_lengths(struct row type, size_t size, size_t room)
{
    memory[size] = (uint8_t)draw();
    ask(READ, type, (struct row){memory, size - 1}, one_in(4) ? below(room) : room), hold(SLICE, came.answer.refusal == 26);
    ask(READ, type, (struct row){memory, size + 1}, one_in(4) ? below(room) : room), hold(SLICE, came.answer.refusal == 26);
}

/* a value to memory and back, by way of memory with other padding */
static void try_value(void)
{
    struct row type = draw_type(), value = draw_value();
    ask(OF, type, none, 0);
    size_t size = (size_t)due.length;
    struct row laid = {memory, size};
    if (!with_rooms(WRITE, none, value, size)) return;
    memcpy(memory, result, size), mark_used(size);
    with_rooms(READ, type, laid, value.n), hold(BACK, gave(value.at, value.n));
    other_lengths(type, size, value.n);
    if (!draw_padding(size)) return;
    met[PADDING_DRAWN]++;
    ask(READ, type, laid, value.n), hold(PADDING, gave(value.at, value.n));
}

/* any bytes to a value and back */
static void try_memory(void)
{
    struct row type = draw_type();
    ask(OF, type, none, 0);
    size_t size = (size_t)due.length;
    for (size_t i = 0; i < size; i++) memory[i] = (uint8_t)draw();
    const uint8_t *t = target;
    size_t n = (size_t)value_length(&t);
    if (!ask(READ, type, (struct row){memory, size}, n + below(3))) return;
    mark_used(size);
    memcpy(record, result, n);
    for (size_t i = 0; i < size; i++) if (!used[i]) memory[i] = 0;
    ask(WRITE, none, (struct row){record, n}, size + below(3)), hold(BACK, gave(memory, size));
}

/* a length for a buffer or a slice: most often about what is due */
static size_t about(wide length)
{
    if (length > MOST / 2) return below(64);
    switch (below(8)) {
    case 0: return length ? (size_t)length - 1 : 0;
    case 1: return one_in(2) ? 0 : below((uint64_t)length + 1);
    case 2: return (size_t)length + 1;
    case 3: return (size_t)length + below(64);
    default: return (size_t)length;
    }
}

/* the three entries on a target and a value, either of which may be anything */
static void try_all(struct row type, struct row value)
{
    ask(OF, type, none, 0);
    struct row laid = {memory, about(due.type ? due.type->size : below(64))};
    const uint8_t *t = type.at;
    for (size_t i = 0; i < laid.n; i++) memory[i] = (uint8_t)draw();
    ask(READ, type, laid, about(due.type ? value_length(&t) : below(64)));
    last = (struct asked){WRITE, none, value, 0}, work_out(&last);
    ask(WRITE, none, value, about(due.type ? due.length : below(64)));
}

/* a kind without a layout somewhere inside, or a runtime-sized array */
static void try_unlaid(void)
{
    struct row type = draw_type();
    int runtime = one_in(8);
    if (!runtime || one_in(2)) take_layout(type.at, type.n);
    struct row value = draw_value();
    if (runtime) memmove(target + 2, target, type.n), memcpy(target, "Tr", 2), type.n += 2;
    try_all(type, value);
}

/* calls of damage.h, and types and values from here damaged by it; some values twice */
static void try_damaged(void)
{
    struct call c;
    if (one_in(2)) next_call(&c);
    else {
        c = (struct call){CONVERT_TO, 0, draw_type(), draw_value()};
        if (one_in(4) && c.args.n < MOST / 2) memcpy(args + c.args.n, args, c.args.n), c.args.n *= 2;
        else for (uint64_t n = 1 + below(3); n; n--) damage(&c);
    }
    try_all(c.target, c.args);
}

/* sizes about 2^64: no slice has them, also where it is as long as what 64 bits leave of the size */
static void try_vast(void)
{
    struct row type = {target, vast_type(target)};
    ask(OF, type, none, 0);
    size_t lengths[] = {0, below(64), size_left(&last) < MOST ? (size_t)size_left(&last) : 16};
    for (int i = 0; i < 3; i++)
        if (due.type->size != lengths[i])
            ask(READ, type, (struct row){memory, lengths[i]}, below(64)), hold(SLICE, came.answer.refusal == 26);
}

static void try_drawn(void)
{
    uint64_t pick = below(16);
    if (pick < 6) try_value();
    else if (pick < 8) try_memory();
    else if (pick < 11) try_unlaid();
    else if (pick < 15) try_damaged();
    else try_vast();
}

#include "table.h"

/* ---- the run ---- */

static void run(uint64_t most, uint64_t seed)
{
    double start = now();
    state = seed, written_down = 0;
    run_written();
    calls = 0, forget();
    for (uint64_t cases = 0; calls < most; cases++) {
        if (cases % 128 == 0) progress(calls, most, "calls", start);
        try_drawn();
    }
    end_progress();
}

static struct fault plant(int i)
{
    enter = wrong[i].call, mistake = wrong[i].mistake;
    return (struct fault){wrong[i].name, wrong[i].check};
}

static int report(uint64_t most, uint64_t seed, double seconds)
{
    printf("%" PRIu64 " calls of seed %" PRIu64 " in %.1f s: %.0f a second\n", calls, seed, seconds, (double)calls / seconds);
    int missing = print_met();
    uint64_t all = print_checks();
    printf("%" PRIu64 " answers written down and %" PRIu64 " drawn calls, %" PRIu64 " faults\n", written_down, calls, all);
    return all || (missing && most >= REQUIRED);
}

int main(int argc, char **argv)
{
    int with_faults = argc > 1 && !strcmp(argv[1], "--planted");
    argc -= with_faults, argv += with_faults;
    if (argc != 3) { fprintf(stderr, "usage: layout [--planted] CALLS SEED, with the lists on standard input\n"); return 2; }
    uint64_t most = strtoull(argv[1], 0, 10), seed = strtoull(argv[2], 0, 10);
    read_lists(stdin);
    if (!listed || !most) { fprintf(stderr, "no lists or no calls\n"); return 2; }
    make_regions(PLACES, MOST + GUARD);
    draw_before();
    catch_signals();
    if (with_faults) return run_planted(WRONG, plant, run, most, seed, "calls");
    double start = now();
    run(most, seed);
    return report(most, seed, now() - start);
}
