/* Damaged calls to the four entries of the C library, against what document 01, and for the stages document 02, says
 * of every call.
 *
 *   fuzz CALLS SEED            target, arguments and buffer lie beside a page that may not be touched: before it or,
 *                              half of the calls, behind it
 *   fuzz --blocks CALLS SEED   they are blocks of just their length, for valgrind
 *   fuzz --planted CALLS SEED  so many calls with each fault of planted.h: exits 1 where a check does not notice the
 *                              fault that it is there for
 *
 * The calls are those of damage.h: the lists (from standard input), and calls made there, most of them damaged.
 * Whether a record is well formed is read by reader.h. Prints counts by entry and answer and by check, and the first
 * ten calls against a check as hex (entry, stage, target, arguments, length of the buffer, answer); exits 1 where
 * there is one.
 */
#include "records.h"
#include "reader.h"
#include "damage.h"
#include "guarded.h"

enum check { ENDS, KEEPS, REFUSED, RECORD, TYPE, FORMED, NUMBER, COUNTS, LENGTH, AGAIN, STAGES, EXACT, CHECKS };
#include "checks.h"
#include "planted.h"

static const struct said checks[CHECKS] = {
    [ENDS] = {"ends", "the call ends and touches nothing outside target, arguments and buffer"},
    [KEEPS] = {"keeps", "target and arguments are as they were"},
    [REFUSED] = {"refused", "a refusal leaves the buffer and its guards; value 0, and no counts but with 8"},
    [RECORD] = {"record", "what is accepted is one whole well-formed record, and nothing past it is touched"},
    [TYPE] = {"type", "it is of the target's type or shape; a rank is 0 for equal types alone, and 7 at most"},
    [FORMED] = {"formed", "3, 1, 2 exactly where the stage, else the target, else the arguments are malformed"},
    [NUMBER] = {"number", "a refusal is one that document 01 has for that entry and target"},
    [COUNTS] = {"counts", "8 carries the count wanted and the count given"},
    [LENGTH] = {"length", "the record is as long as its type says, and 22 is said only where the buffer is shorter"},
    [AGAIN] = {"again", "the same call with its bytes elsewhere gives the same answer and the same record"},
    [STAGES] = {"stages", "the same call at Const and at Override gives one answer and one record"},
    [EXACT] = {"exact", "a buffer of just the record's length does, and one a byte shorter is 22"},
};

/* the calls that try one again; the fault that is planted, if one is */
static uint64_t more_calls;
static void (*spoil)(struct made_call);

/* ---- where the bytes of a call lie ---- */

/* regions between forbidden pages, or the blocks of one call */
enum { TARGET, ARGS, OUT, PLACES };
static uint8_t *block[PLACES];
static int blocks;

static uint8_t *place(int which, size_t n, int ends)
{
    if (!blocks) return beside_page(which, n, ends);
    free(block[which]);
    if (!(block[which] = malloc(n))) { fprintf(stderr, "no memory\n"); exit(2); }
    return block[which];
}

/* the bytes of guarded.h that a buffer holds before the call, in their order: the guard on the side where no
 * forbidden page is among them */
static size_t guard_of(void) { return blocks ? 0 : GUARD; }
static uint8_t *with_guard(uint8_t *out, int ends) { return ends ? out - guard_of() : out; }

static int as_before(uint8_t *out, size_t room, int ends, size_t used)
{
    const uint8_t *from = with_guard(out, ends);
    size_t front = (size_t)(out - from), all = room + guard_of();
    return !memcmp(from, before, front) && !memcmp(out + used, before + front + used, all - front - used);
}

/* ---- one call ---- */

static void faulty(enum check check, const struct call *c, size_t room, struct vireo_answer r)
{
    faults[check]++;
    if (shown++ >= 10) return;
    printf(c->entry == CALL_CTOR ? "against '%s': %s %d" : "against '%s': %s -", checks[check].name, entry_names[c->entry], c->stage);
    print_row(c->target), print_row(c->args);
    printf(" %zu refusal %" PRIu64 " value %" PRIu64 " wanted %" PRIu64 " given %" PRIu64 "\n", room, r.refusal,
        r.value, r.wanted, r.given);
    fflush(stdout);
}

static void hold(enum check check, int good, const struct call *c, size_t room, struct vireo_answer r)
{
    held[check]++;
    if (!good) faulty(check, c, room, r);
}

/* the bytes of an accepted record */
static size_t written(const struct call *c, struct vireo_answer r) { return r.refusal || c->entry == CONVERSION_RANK ? 0 : r.value; }

/* One call with a buffer of that length, and what holds of every call. An unfilled buffer is for valgrind: what the
 * library reads of it, or leaves unwritten in a record, shows. Where it returns 0 there is nothing more to look at;
 * else *out is the buffer. */
static int attempt(const struct call *c, size_t room, int ends, int filled, struct vireo_answer *r, uint8_t **out)
{
    uint8_t *t = place(TARGET, c->target.n, ends), *a = place(ARGS, c->args.n, ends), *o = place(OUT, room, ends);
    memcpy(t, c->target.at, c->target.n), memcpy(a, c->args.at, c->args.n);
    if (filled) memcpy(with_guard(o, ends), before, room + guard_of());
    *out = o, *r = (struct vireo_answer){0, 0, 0, 0};
    if (sigsetjmp(back, 0)) {
        inside = 0;
        hold(ENDS, 0, c, room, *r);
        return 0;
    }
    inside = 1;
    *r = entered(c->entry, c->stage, t, c->target.n, a, c->args.n, o, room);
    if (spoil) spoil((struct made_call){c, t, a, o, room, r});
    inside = 0;
    hold(ENDS, 1, c, room, *r);
    hold(KEEPS, !memcmp(t, c->target.at, c->target.n) && !memcmp(a, c->args.at, c->args.n), c, room, *r);
    size_t used = written(c, *r);
    hold(r->refusal ? REFUSED : RECORD, used <= room && (!filled || as_before(o, room, ends, used)), c, room, *r);
    return used <= room;
}

/* ---- what document 01 says of it ---- */

/* accepted is 0, and no refusal's number is over 22 */
enum { ANSWERS = 23 };

/* what the reader finds: the refusal where something is malformed, else 0, the arguments, and how long the record is if there is one */
struct reading { unsigned refusal; struct arguments args; unsigned __int128 length; };

static unsigned __int128 record_length(const struct call *c, const struct arguments *a)
{
    const uint8_t *t = c->target.at, *element = t + 2;
    int shape = t[0] == 'Q';
    if (c->entry == TYPE_CTOR) return !shape ? c->target.n : t[1] == 'a' ? 4 + a->first : t[1] == 'v' ? 6 : 7;
    if (shape) return t[1] == 'a' ? 4 + c->args.n : t[1] == 'v' ? 3 + 11u * t[2] : 4 + t[2] * (3 + 11u * t[3]);
    if (t[1] != 'r') return value_length(&t);
    return c->entry == CONVERT_TO ? c->args.n : 4 + a->count * value_length(&element);
}

static struct reading read_call(const struct call *c)
{
    struct reading r = {0, {0, 0, 0, 0}, 0};
    int conversion = c->entry == CONVERT_TO || c->entry == CONVERSION_RANK;
    if (c->entry == CALL_CTOR && c->stage > 2) { r.refusal = 3; return r; }
    if (!target_formed(c->target.at, c->target.n, !conversion)) { r.refusal = 1; return r; }
    int qa = c->target.at[0] == 'Q' && c->target.at[1] == 'a';
    r.args = arguments_formed(c->args.at, c->args.n, takes_types(c->entry), qa, conversion ? 1 : ARGS_MOST);
    if (!r.args.formed || (conversion && r.args.count != 1)) r.refusal = 2;
    else r.length = record_length(c, &r.args);
    return r;
}

/* the refusals that the rules have for an entry and a target, past 1, 2 and 3 */
enum { MARKS = 9 };
static const struct { const char *mark, *of[ENTRIES]; } rules[MARKS] = {
    {"Ts", {[CALL_CTOR] = "4 5 6 15 21 22", [TYPE_CTOR] = "4 5 22", [CONVERT_TO] = "9 22", [CONVERSION_RANK] = "9"}},
    {"Tv", {[CALL_CTOR] = "7 8 9 12 15 21 22", [TYPE_CTOR] = "7 8 12 16 22", [CONVERT_TO] = "9 22", [CONVERSION_RANK] = "9"}},
    {"Tm", {[CALL_CTOR] = "7 8 10 13 14 21 22", [TYPE_CTOR] = "7 8 10 13 14 22", [CONVERT_TO] = "9 22", [CONVERSION_RANK] = "9"}},
    {"Ta", {[CALL_CTOR] = "8 9 22", [TYPE_CTOR] = "7 22", [CONVERT_TO] = "9 22", [CONVERSION_RANK] = "9"}},
    {"Tr", {[CALL_CTOR] = "4 9 22", [TYPE_CTOR] = "16", [CONVERT_TO] = "9 22", [CONVERSION_RANK] = "9"}},
    {"Tu", {[CALL_CTOR] = "8 9 22", [TYPE_CTOR] = "8 9 22", [CONVERT_TO] = "9 22", [CONVERSION_RANK] = "9"}},
    {"Qa", {[CALL_CTOR] = "10 11 22", [TYPE_CTOR] = "10 22", [CONVERT_TO] = "", [CONVERSION_RANK] = ""}},
    {"Qv", {[CALL_CTOR] = "7 8 10 12 22", [TYPE_CTOR] = "8 10 12 22", [CONVERT_TO] = "", [CONVERSION_RANK] = ""}},
    {"Qm", {[CALL_CTOR] = "7 8 10 11 13 14 22", [TYPE_CTOR] = "7 8 10 11 13 14 22", [CONVERT_TO] = "", [CONVERSION_RANK] = ""}},
};
static uint8_t has[ENTRIES][MARKS][ANSWERS];
static void read_rules(void)
{
    for (int e = 0; e < ENTRIES; e++)
        for (int m = 0; m < MARKS; m++) {
            const char *at = rules[m].of[e];
            for (int n, len; sscanf(at, "%d%n", &n, &len) == 1; at += len) has[e][m][n] = 1;
        }
}
static int mark_of(const uint8_t *t)
{
    int i = 0;
    while (i < MARKS - 1 && memcmp(t, rules[i].mark, 2)) i++;
    return i;
}

/* whether 8 says how many were wanted and given: typing gives the number of arguments, and so do arrays, structs and
 * matrices; building a vector gives the flattened count */
static int counted(const struct call *c, const struct arguments *a, struct vireo_answer r)
{
    const uint8_t *t = c->target.at;
    int vector = t[1] == 'v', typing = c->entry == TYPE_CTOR;
    if (r.given != (vector && !typing ? a->flat : a->count)) return 0;
    if (r.given == r.wanted && !(vector && typing)) return 0;
    if (t[1] == 'm') return r.wanted == t[2] || r.wanted == (uint64_t)t[2] * t[3];
    return r.wanted == (vector ? t[2] : u16(t[1] == 'a' ? t + 2 : t + 4));
}

/* whether a type is the one that the target names: itself, an array of the element type, or one of that shape */
static int named(const struct call *c, const struct arguments *a, const uint8_t *type, size_t n)
{
    const uint8_t *t = c->target.at;
    size_t tn = c->target.n, elements = c->entry == CONVERT_TO ? u16(c->args.at + 2) : a->count;
    if (t[1] == 'r') return type[1] == 'a' && u16(type + 2) == elements && n == tn + 2 && !memcmp(type + 4, t + 2, tn - 2);
    if (t[0] == 'T') return n == tn && !memcmp(type, t, n);
    return type[1] == t[1] && (t[1] == 'a' ? u16(type + 2) == elements : !memcmp(type + 2, t + 2, tn - 2));
}

/* whether the bytes are one whole record of what the entry writes; its type is left at *type */
static int whole(const struct call *c, const uint8_t *record, size_t n, const uint8_t **type, size_t *type_n)
{
    static uint8_t derived[TYPE_ROOM];
    if (c->entry == TYPE_CTOR) {
        *type = record, *type_n = n;
        return n && n <= TYPE_MOST && type_front(record, n, DEPTH_MOST) == n;
    }
    *type = derived;
    return n && value_front(record, n, DEPTH_MOST, derived, type_n) == n;
}

static void judge(const struct call *c, const struct reading *read, size_t room, struct vireo_answer r, const uint8_t *out)
{
    if (r.refusal) hold(REFUSED, !r.value && (r.refusal == 8 || (!r.wanted && !r.given)), c, room, r);
    else hold(RECORD, !r.wanted && !r.given, c, room, r);
    hold(FORMED, read->refusal ? r.refusal == read->refusal : r.refusal < 1 || r.refusal > 3, c, room, r);
    if (read->refusal || (r.refusal >= 1 && r.refusal <= 3)) return;
    if (r.refusal) hold(NUMBER, r.refusal < ANSWERS && has[c->entry][mark_of(c->target.at)][r.refusal], c, room, r);
    if (r.refusal == 8) hold(COUNTS, counted(c, &read->args, r), c, room, r);
    if (r.refusal == 22) hold(LENGTH, read->length > room, c, room, r);
    if (r.refusal) return;
    if (c->entry == CONVERSION_RANK) {
        int equal = c->target.n == c->args.n && !memcmp(c->target.at, c->args.at, c->args.n);
        hold(TYPE, r.value <= 7 && equal == (r.value == 0), c, room, r);
        return;
    }
    const uint8_t *type;
    size_t type_n;
    int one = whole(c, out, r.value, &type, &type_n);
    hold(RECORD, one, c, room, r);
    hold(LENGTH, r.value == read->length, c, room, r);
    if (one) hold(TYPE, named(c, &read->args, type, type_n), c, room, r);
}

/* a length for the buffer: most often about what the record takes */
static size_t room_for(const struct reading *read)
{
    if (read->refusal || read->length > MOST) return below(one_in(64) ? 4096 : 64);
    size_t length = (size_t)read->length;
    switch (below(8)) {
    case 0: return length;
    case 1: return length ? length - 1 : 0;
    case 2: return one_in(2) ? 0 : below(length + 1);
    default: length += below(24); return length <= MOST ? length : MOST;
    }
}

/* the call again, its bytes on the other side of their pages, or with a buffer that was never written */
static void try_again(const struct call *c, size_t room, int ends, struct vireo_answer first, const uint8_t *record)
{
    struct vireo_answer r;
    uint8_t *out;
    more_calls++;
    if (attempt(c, room, !ends, !blocks, &r, &out)) hold(AGAIN, same(first, r) && !memcmp(out, record, written(c, first)), c, room, r);
}

/* a building call at Const or Override, at the other of the two: "gets one result" */
static void try_other_stage(const struct call *c, size_t room, int ends, struct vireo_answer first, const uint8_t *record)
{
    struct call other = *c;
    struct vireo_answer r;
    uint8_t *out;
    if (c->entry != CALL_CTOR || c->stage > 1) return;
    other.stage = 1 - c->stage;
    more_calls++;
    if (attempt(&other, room, ends, 1, &r, &out)) hold(STAGES, same(first, r) && !memcmp(out, record, written(c, first)), &other, room, r);
}

/* the call with a buffer of just the record's length, and with one a byte shorter; after a 22 there is no record to compare with */
static void try_exact(const struct call *c, size_t n, int ends, struct vireo_answer first, const uint8_t *record)
{
    struct vireo_answer r;
    uint8_t *out;
    more_calls += 2;
    if (attempt(c, n, ends, 1, &r, &out)) hold(EXACT, !r.refusal && r.value == n && (first.refusal || !memcmp(out, record, n)), c, n, r);
    if (n && attempt(c, n - 1, ends, 1, &r, &out)) hold(EXACT, r.refusal == 22 && !r.value, c, n - 1, r);
}

/* ---- the run ---- */

static uint64_t met[ENTRIES][ANSWERS + 1], met_at[ENTRIES][MARKS][ANSWERS];

static void try_call(const struct call *c)
{
    static uint8_t record[MOST];
    struct reading read = read_call(c);
    struct vireo_answer r;
    uint8_t *out;
    size_t room = c->entry == CONVERSION_RANK ? 0 : room_for(&read);
    int ends = one_in(2), repeated = one_in(8) || blocks;
    if (!attempt(c, room, ends, 1, &r, &out)) return;
    judge(c, &read, room, r, out);
    met[c->entry][r.refusal < ANSWERS ? r.refusal : ANSWERS]++;
    if (!read.refusal && r.refusal < ANSWERS) met_at[c->entry][mark_of(c->target.at)][r.refusal]++;
    if (!repeated) return;
    memcpy(record, out, written(c, r));
    try_again(c, room, ends, r, record);
    try_other_stage(c, room, ends, r, record);
    if (written(c, r) || (r.refusal == 22 && read.length <= MOST)) try_exact(c, r.refusal ? (size_t)read.length : r.value, ends, r, record);
}

static void print_answers(void)
{
    for (int e = 0; e < ENTRIES; e++) {
        printf("  %-15s accepted %" PRIu64 "; refused", entry_names[e], met[e][0]);
        for (int n = 1; n < ANSWERS; n++)
            if (met[e][n]) printf(" %d: %" PRIu64, n, met[e][n]);
        printf(met[e][ANSWERS] ? " another number: %" PRIu64 "\n" : "\n", met[e][ANSWERS]);
    }
}

/* what the rules have for an entry and a target, and did not come up */
static void print_missing(void)
{
    int missing = 0;
    for (int e = 0; e < ENTRIES; e++) {
        for (int n = 1; n <= 3; n++)
            if (!met[e][n] && (n < 3 || e == CALL_CTOR)) printf("%s %s %d", missing++ ? "," : "  did not come up:", entry_names[e], n);
        for (int m = 0; m < MARKS; m++)
            for (int n = 0; n < ANSWERS; n++)
                if (!met_at[e][m][n] && has[e][m][n])
                    printf("%s %s of %s: %d", missing++ ? "," : "  did not come up:", entry_names[e], rules[m].mark, n);
    }
    printf(missing ? "\n" : "  every refusal of every entry and target came up\n");
}

static void run(uint64_t calls, uint64_t seed)
{
    double start = now();
    struct call c;
    state = seed;
    for (uint64_t i = 0; i < calls; i++) {
        if (i % 1024 == 0) progress(i, calls, "calls", start);
        next_call(&c);
        try_call(&c);
    }
    end_progress();
}

static struct fault plant(int i)
{
    spoil = planted[i].spoil;
    return (struct fault){planted[i].name, planted[i].check};
}

static int report(uint64_t calls, uint64_t seed, double seconds)
{
    printf("%" PRIu64 " calls of seed %" PRIu64 " in %.1f s: %.0f a second, with %" PRIu64 " more to try some of them again\n",
           calls, seed, seconds, (double)calls / seconds, more_calls);
    print_answers();
    print_missing();
    uint64_t all = print_checks();
    printf("%" PRIu64 " calls, damaged and not, %" PRIu64 " faults\n", calls, all);
    return all != 0;
}

int main(int argc, char **argv)
{
    int with_faults = argc > 1 && !strcmp(argv[1], "--planted");
    blocks = argc > 1 && !strcmp(argv[1], "--blocks");
    argc -= with_faults || blocks, argv += with_faults || blocks;
    if (argc != 3) { fprintf(stderr, "usage: fuzz [--blocks | --planted] CALLS SEED, with the lists on standard input\n"); return 2; }
    uint64_t calls = strtoull(argv[1], 0, 10), seed = strtoull(argv[2], 0, 10);
    read_lists(stdin);
    if (!listed || !calls) { fprintf(stderr, "no lists or no calls\n"); return 2; }
    if (!blocks) make_regions(PLACES, MOST + GUARD);
    draw_before();
    read_rules();
    catch_signals();
    if (with_faults) return run_planted(PLANTED, plant, run, calls, seed, "calls");
    double start = now();
    run(calls, seed);
    return report(calls, seed, now() - start);
}
