/* Whole routes through vireo_call_batch, each job against vireo_call_ctor alone.
 *
 *   batch ROUTES SEED            the routes written down here, then so many drawn ones
 *   batch --planted ROUTES SEED  so many drawn routes with each fault of wrong.h: exits 1 where a check does not
 *                                notice the fault that it is there for
 *
 * Slice, list and buffer of a route lie each beside a page that may not be touched: before it or, half of the time,
 * behind it, with guard bytes on the other side. Whether a part is outside is judged here by a sum of 128 bits. Then
 * each job is made alone: its target and arguments are copied beside forbidden pages, and the buffer of that call is
 * just what is left and ends at one. The calls that the drawn routes are made of are those of damage.h, from the
 * lists on standard input. Prints counts, and the first ten faults; exits 1 where there is one, or where something
 * that the routes must show did not come up in REQUIRED routes or more.
 */
#include "records.h"
#include "reader.h"
#include "damage.h"
#include "guarded.h"
#include "routes.h"

enum check { ENDS, SLICE, LIST, CALL, REFUSED, ANSWER, PLACE, BYTES, FIT, ALONE, CHECKS };
#include "checks.h"
#include "wrong.h"

static const struct said checks[CHECKS] = {
    [ENDS] = {"ends", "the call ends and touches nothing outside slice, list and buffer"},
    [SLICE] = {"slice", "the slice and its guard are as they were"},
    [LIST] = {"list", "targets, arguments and stages in the list are as they were, and so is its guard"},
    [CALL] = {"call", "23 for more than 256 jobs, else 24 for a part outside, else accepted with the length of all records"},
    [REFUSED] = {"refused", "a refused call leaves answers and places in the list, the buffer and its guard"},
    [ANSWER] = {"answer", "a job's answer is the one that it gets alone"},
    [PLACE] = {"place", "a job's place is the length of all records before it"},
    [BYTES] = {"bytes", "the buffer holds the records that the jobs get alone, one after another, and behind them what it "
                        "held; so does its guard"},
    [FIT] = {"fit", "a record that ends at the buffer's end is accepted, and one byte less is 22"},
    [ALONE] = {"alone", "the calls alone end, and touch nothing but their buffers up to the record's end"},
};

enum { REQUIRED = 20000 };

/* which route it is, by its name or its number, and the call: vireo_call_batch, or one of wrong.h */
static const char *route_name;
static uint64_t route_number;
static struct vireo_answer (*batch)(struct batch) = right;

/* ---- faults ---- */

/* a fault of a route; the number of a drawn one and the seed make it again. Returns whether it was printed, so that more can be */
static int faulty(enum check check, const struct route *r)
{
    faults[check]++;
    if (shown++ >= 10) return 0;
    if (route_name) printf("against '%s': %s", checks[check].name, route_name);
    else printf("against '%s': drawn route %" PRIu64, checks[check].name, route_number);
    printf(": jobs %zu, bytes of the slice %zu, of the buffer %zu\n", r->count, r->n, r->room);
    fflush(stdout);
    return 1;
}

static int hold(enum check check, int good, const struct route *r)
{
    held[check]++;
    return !good && faulty(check, r);
}

static void print_answer(const char *what, struct vireo_answer a)
{
    printf("%s refusal %" PRIu64 " value %" PRIu64 " wanted %" PRIu64 " given %" PRIu64, what, a.refusal, a.value, a.wanted, a.given);
}
static void print_both(const char *what, struct vireo_answer due, struct vireo_answer came)
{
    print_answer(what, due), print_answer("; came", came), printf("\n");
}

/* ---- what is due ---- */

enum { LENT_SLICE, LENT_LIST, LENT_OUT, ALONE_TARGET, ALONE_ARGS, ALONE_OUT, PLACES };

/* what a route must leave: the call's answer, in the list each job's answer and place, in the buffer the bytes */
static struct { struct vireo_answer call, answer[JOBS_TAKEN]; size_t at[JOBS_TAKEN]; uint8_t out[MOST]; } due;

/* whether a part reaches outside the slice, or is empty and begins past its end */
static unsigned __int128 sum(struct vireo_part p) { return (unsigned __int128)p.start + p.len; }
static int outside(struct vireo_part p, size_t n) { return p.len ? sum(p) > n : p.start > n; }

static uint64_t refused_whole(const struct route *r)
{
    if (r->count > JOBS_TAKEN) return 23;
    for (size_t i = 0; i < r->count; i++)
        if (outside(jobs[i].target, r->n) || outside(jobs[i].args, r->n)) return 24;
    return 0;
}

static uint8_t *part_alone(int which, struct vireo_part p, int ends)
{
    return memcpy(beside_page(which, p.len, ends), slice + p.start, p.len);
}

/* one job alone, with what is left of the buffer */
static int job_alone(const struct route *r, size_t i, size_t at, int ends, uint8_t *out, size_t room)
{
    const struct vireo_job *j = &jobs[i];
    const uint8_t *t = part_alone(ALONE_TARGET, j->target, ends), *a = part_alone(ALONE_ARGS, j->args, ends);
    inside = 1;
    struct vireo_answer answer = vireo_call_ctor(j->stage, t, j->target.len, a, j->args.len, out + at, room - at);
    inside = 0;
    int good = answer.refusal ? !answer.value : answer.value <= room - at;
    hold(ALONE, good, r);
    if (!good) return 0;
    due.answer[i] = answer, due.at[i] = at;
    memcpy(due.out + at, out + at, answer.value);
    return 1;
}

/* All of them in order, with a buffer of that length in all. It ends at a forbidden page; its front is the records
 * so far, which the next call must not touch. A buffer that is not filled is for the lengths alone. */
static int jobs_alone(const struct route *r, size_t room, int filled)
{
    uint8_t *out = beside_page(ALONE_OUT, room, 1);
    size_t at = 0;
    int ends = one_in(2);
    if (filled) memcpy(out, before, room);
    for (size_t i = 0; i < r->count; at += due.answer[i++].value)
        if (!job_alone(r, i, at, ends, out, room)) return 0;
    due.call = (struct vireo_answer){0, at, 0, 0};
    if (!filled) return 1;
    memcpy(due.out + at, before + at, room - at);
    hold(ALONE, !memcmp(out, due.out, room), r);
    return 1;
}

/* what is due of an accepted call; 0 where a call alone did not end, or said what cannot be */
static int alone(const struct route *r, size_t room, int filled)
{
    if (!sigsetjmp(back, 0)) return jobs_alone(r, room, filled);
    inside = 0;
    hold(ALONE, 0, r);
    return 0;
}

/* ---- one call ---- */

/* all that a route lends */
struct loan { struct lain bytes, list, out; };

static int same_part(struct vireo_part p, struct vireo_part q) { return p.start == q.start && p.len == q.len; }
static int same_named(const struct vireo_job *x, const struct vireo_job *y)
{
    return same_part(x->target, y->target) && same_part(x->args, y->args) && x->stage == y->stage;
}
static int same_set(const struct vireo_job *x, const struct vireo_job *y) { return same(x->answer, y->answer) && x->at == y->at; }

static struct vireo_job *listed_in(const struct loan *l) { return (struct vireo_job *)l->list.at; }

static void judge(const struct route *r, struct vireo_answer came, const struct loan *l)
{
    const struct vireo_job *after = listed_in(l);
    int named = 1, set = 1;
    for (size_t i = 0; i < r->count; i++) named &= same_named(&after[i], &jobs[i]), set &= same_set(&after[i], &jobs[i]);
    hold(SLICE, kept_as(l->bytes, slice), r);
    hold(LIST, named && guard_kept(l->list), r);
    if (hold(CALL, same(came, due.call), r)) print_both("  due", due.call, came);
    if (due.call.refusal) hold(REFUSED, set && kept_as(l->out, before), r);
    if (due.call.refusal || came.refusal) return;
    for (size_t i = 0; i < r->count; i++) {
        if (hold(ANSWER, same(after[i].answer, due.answer[i]), r))
            printf("  job %zu:", i), print_both(" due", due.answer[i], after[i].answer);
        if (hold(PLACE, after[i].at == due.at[i], r)) printf("  job %zu: due %zu; came %zu\n", i, due.at[i], after[i].at);
    }
    hold(BYTES, kept_as(l->out, due.out), r);
    if (r->fit == NOWHERE) return;
    const struct vireo_job *j = &after[r->fit_job];
    hold(FIT, r->fit == BYTE_SHORT ? j->answer.refusal == 22 : !j->answer.refusal
        && j->at + j->answer.value + (r->fit == BYTE_OVER) == r->room, r);
}

/* a call whose answers are due: made, and judged; *l is then what was lent, as the call left it. Returns 0 where the call did not end */
static int attempt(const struct route *r, struct loan *l)
{
    l->bytes = lay(LENT_SLICE, slice, r->n), l->list = lay(LENT_LIST, jobs, r->count * sizeof *jobs),
        l->out = lay(LENT_OUT, before, r->room);
    if (sigsetjmp(back, 0)) {
        inside = 0;
        hold(ENDS, 0, r);
        return 0;
    }
    inside = 1;
    struct vireo_answer came = batch((struct batch){l->bytes.at, r->n, listed_in(l), r->count, l->out.at, r->room});
    inside = 0;
    hold(ENDS, 1, r);
    judge(r, came, l);
    return 1;
}

/* what is due with a buffer of the route's length */
static int work_out(const struct route *r)
{
    due.call = (struct vireo_answer){refused_whole(r), 0, 0, 0};
    return due.call.refusal || alone(r, r->room, 1);
}

/* ---- routes written down ---- */

static uint64_t written_down, otherwise;
static struct route written;
static struct vireo_answer told[JOBS_MOST];

/* a record behind the earlier ones in the slice, and a job with the answer that it must get */
static struct vireo_part put_in(const void *record, size_t n)
{
    memcpy(slice + written.n, record, n);
    written.n += n;
    return (struct vireo_part){written.n - n, n};
}
static void job(struct vireo_part t, struct vireo_part a, uint8_t stage, struct vireo_answer answer)
{
    told[written.count] = answer;
    jobs[written.count++] = (struct vireo_job){t, a, stage, {99, 99, 99, 99}, 99};
}

/* the route of the jobs so far: judged as a drawn one is, and held to what is written down: the call's refusal, or
 * the jobs' answers. Then there are none */
static void expect(const char *what, size_t room, uint64_t refusal)
{
    struct loan l;
    size_t at = 0;
    written.room = room, route_name = what;
    int good = work_out(&written) && attempt(&written, &l) && due.call.refusal == refusal;
    for (size_t i = 0; i < written.count && good && !refusal; at += told[i++].value)
        good = same(listed_in(&l)[i].answer, told[i]) && listed_in(&l)[i].at == at;
    written_down++;
    if ((!good || (!refusal && due.call.value != at)) && otherwise++ < 10) printf("%s: answered otherwise\n", what);
    written.count = 0, route_name = 0;
}

static struct vireo_answer ok(uint64_t n) { return (struct vireo_answer){0, n, 0, 0}; }
static struct vireo_answer no(uint64_t refusal) { return (struct vireo_answer){refusal, 0, 0, 0}; }

/* the parts that the routes below are made of: types, one AbstractInt, two of them side by side, an AbstractFloat
 * past F32, and what is no record */
static struct vireo_part f32, vec2, array3, one, two, far, bad, none;
static void write_slice(void)
{
    written.n = 0;
    bad = put_in("Ts\7", 3), array3 = put_in("Ta\3\0Ts\3", 7), vec2 = put_in("Tv\2Ts\5", 6);
    f32 = (struct vireo_part){vec2.start + 3, 3}; /* the end of vec2 */
    far = put_in("Vs\2\0\0\0\0\0\0\360\107", 11); /* 2^128 */
    one = put_in("Vs\1\1\0\0\0\0\0\0\0", 11), put_in("Vs\1\2\0\0\0\0\0\0\0", 11);
    two = (struct vireo_part){one.start, 22};
    none = (struct vireo_part){written.n, 0};
}

/* f32 and vec2 in turn */
static size_t turns(size_t count)
{
    for (size_t i = 0; i < count; i++) job(i % 2 ? vec2 : f32, i % 3 ? one : none, (uint8_t)(i % 3), ok(i % 2 ? 25 : 11));
    return count / 2 * 36 + count % 2 * 11;
}

static void numbers_of_jobs(void)
{
    static const size_t counts[] = {0, 1, 2, 3, 199, 200, 201, 255, 256};
    for (size_t i = 0; i < sizeof counts / sizeof *counts; i++) {
        size_t n = turns(counts[i]);
        expect("an exact buffer", n, 0);
        turns(counts[i]), expect("a long buffer", n + 1000, 0);
        turns(counts[i]), expect("a byte over", n + 1, 0);
        if (!counts[i]) continue;
        turns(counts[i]), told[counts[i] - 1] = no(22), expect("a byte short", n - 1, 0);
        turns(counts[i]), jobs[0].args.start = none.start + 1, jobs[0].args.len = 0, expect("the first outside", n, 24);
        turns(counts[i]), jobs[counts[i] - 1].target.len = written.n, expect("the last outside", n, 24);
    }
    for (size_t count = 257; count <= JOBS_MOST; count += count < 260 ? 1 : 191) {
        turns(count), expect("more than 256", ROOM, 23);
        turns(count), jobs[0].args = (struct vireo_part){none.start, 1}, expect("more than 256, one of them outside", ROOM, 23);
        turns(count), jobs[count - 1].target = (struct vireo_part){SIZE_MAX, 1}, expect("more than 256, the last outside", 0, 23);
    }
}

static void refused_among(void)
{
    struct vireo_answer short_of = {8, 0, 3, 1};
    job(array3, one, 0, short_of), job(f32, one, 0, ok(11)), expect("refused first", 11, 0);
    job(f32, one, 0, ok(11)), job(array3, one, 0, short_of), expect("refused last", 11, 0);
    job(f32, one, 3, no(3)), job(bad, one, 0, no(1)), job(f32, bad, 0, no(2)), job(f32, two, 0, no(5)), job(array3, one, 2, short_of);
    job(vec2, two, 255, no(3)), job(vec2, two, 1, ok(25)), job(none, none, 0, no(1)), job(bad, bad, 3, no(3)), job(f32, none, 2, ok(11));
    expect("refused in a row", ROOM, 0);
    job(f32, one, 3, no(3)), job(f32, (struct vireo_part){none.start + 1, 0}, 3, no(3)), expect("stage 3 and a part outside", ROOM, 24);
    job(f32, far, 0, no(21)), job(f32, far, 1, no(21)), job(f32, far, 2, ok(11)), expect("past F32 at each stage", ROOM, 0);
    /* what is too long for the rest is refused, and a shorter record then has its place */
    job(vec2, one, 0, no(22)), job(f32, one, 0, ok(11)), job(vec2, one, 0, no(22)), job(f32, none, 0, ok(11)),
        job(f32, none, 0, no(22)), expect("a shorter one", 24, 0);
    job(f32, one, 0, no(22)), job(bad, one, 0, no(1)), job(vec2, one, 0, no(22)), expect("a buffer of 10", 10, 0);
    job(f32, one, 0, no(22)), job(array3, one, 0, short_of), expect("no buffer", 0, 0);
    job(f32, one, 0, ok(11)), job(vec2, two, 0, ok(25)), job(f32, one, 0, no(22)), job(array3, one, 0, short_of),
        expect("a full buffer", 36, 0);
}

/* a part in the target's place and in the arguments', between two jobs that are accepted */
static void both_places(const char *what, struct vireo_part p, struct vireo_answer as_target, struct vireo_answer as_args, uint64_t refusal)
{
    job(f32, one, 0, ok(11)), job(p, one, 0, as_target), job(f32, one, 0, ok(11)), expect(what, ROOM, refusal);
    job(f32, one, 0, ok(11)), job(f32, p, 0, as_args), job(f32, one, 0, ok(11)), expect(what, ROOM, refusal);
}
static void outside_slice(const char *what, size_t start, size_t len)
{
    both_places(what, (struct vireo_part){start, len}, no(24), no(24), 24);
}

static void parts(void)
{
    size_t n = written.n, top = SIZE_MAX;
    both_places("one part for all", f32, ok(11), no(2), 0);
    both_places("arguments for the target", one, no(1), ok(11), 0);
    both_places("the whole slice", (struct vireo_part){0, n}, no(1), no(2), 0);
    both_places("the last byte", (struct vireo_part){n - 1, 1}, no(1), no(2), 0);
    both_places("the last record", (struct vireo_part){n - 11, 11}, no(1), ok(11), 0);
    both_places("empty at the front", (struct vireo_part){0, 0}, no(1), ok(11), 0);
    both_places("empty inside", (struct vireo_part){n / 2, 0}, no(1), ok(11), 0);
    both_places("empty at the end", (struct vireo_part){n, 0}, no(1), ok(11), 0);
    outside_slice("empty past the end", n + 1, 0);
    outside_slice("a byte at the end", n, 1);
    outside_slice("a byte past the end", n + 1, 1);
    outside_slice("a byte too long", n - 11, 12);
    outside_slice("all and a byte", 0, n + 1);
    outside_slice("empty at the top", top, 0);
    outside_slice("the last byte of 64 bits", top, 1);
    for (size_t len = 1; len <= n; len++) {
        outside_slice("up to the top", top - len + 1, len);
        outside_slice("past the top, to a place inside", top - len + 1, len + n - 1);
        outside_slice("a length that comes back to a place before it", len, top - len + 1 + len / 2);
        outside_slice("a length that comes back to 0", len, top - len + 1);
        outside_slice("the greatest length", len, top);
        outside_slice("the greatest start", top, len);
    }
    outside_slice("the greatest length at 0", 0, top);
    outside_slice("two halves", top / 2 + 1, top / 2 + 1);
    outside_slice("two halves to the end", top / 2 + 1, top / 2 + 1 + n);
    outside_slice("the top twice", top, top);
    written.n = 0;
    none = (struct vireo_part){0, 0};
    job(none, none, 0, no(1)), job(none, none, 3, no(3)), expect("an empty slice", ROOM, 0);
    job(none, none, 0, no(1)), job((struct vireo_part){0, 1}, none, 0, no(1)), expect("a byte of an empty slice", ROOM, 24);
    job(none, (struct vireo_part){1, 0}, 0, no(1)), expect("empty past an empty slice", ROOM, 24);
}

static void run_written(void)
{
    write_slice();
    numbers_of_jobs();
    refused_among();
    parts();
}

/* ---- drawn routes ---- */

/* what the drawn routes must show, each counted where it is met */
enum class {
    JOBS_0, JOBS_1, JOBS_2, JOBS_FEW, JOBS_200, JOBS_255, JOBS_256, JOBS_257, JOBS_MORE,
    ACCEPTED_256, REFUSED_23, REFUSED_24, BOTH, OUTSIDE_256, OUTSIDE_FIRST, OUTSIDE_LAST, OUTSIDE_TARGET, OUTSIDE_ARGS,
    STAGE_3_OUTSIDE, EMPTY_SLICE,
    SHARED_TARGET, SHARED_ARGS, OVERLAPPING, UP_TO_END, EMPTY_INSIDE, EMPTY_AT_END, EMPTY_PAST, BYTE_OUTSIDE, START_TOP,
    LEN_TOP, SUM_2_64, WRAPS_INSIDE,
    STAGE_0, STAGE_1, STAGE_2, STAGE_3, STAGE_MORE,
    NO_BUFFER, FIT_EXACT, FIT_SHORT, FIT_OVER, SLICE_BEFORE, SLICE_BEHIND, LIST_BEFORE, LIST_BEHIND, OUT_BEFORE, OUT_BEHIND,
    FIRST_REFUSED, LAST_REFUSED, ROW_REFUSED, ALL_REFUSED, NONE_REFUSED, AFTER_22, CLASSES
};
static uint64_t met[CLASSES], answers[23], drawn_jobs;
static const char *const classes[CLASSES] = {
    [JOBS_0] = "routes of no jobs", [JOBS_1] = "of 1", [JOBS_2] = "of 2", [JOBS_FEW] = "of 3 to 189 or 211 to 254",
    [JOBS_200] = "of 190 to 210", [JOBS_255] = "of 255",
    [JOBS_256] = "of 256", [JOBS_257] = "of 257", [JOBS_MORE] = "of more",
    [ACCEPTED_256] = "calls accepted with 256 jobs", [REFUSED_23] = "refused 23", [REFUSED_24] = "refused 24",
    [BOTH] = "23 with a part outside",
    [OUTSIDE_256] = "24 with 256 jobs", [OUTSIDE_FIRST] = "24 by the first job alone", [OUTSIDE_LAST] = "24 by the last job alone",
    [OUTSIDE_TARGET] = "24 by targets alone", [OUTSIDE_ARGS] = "24 by arguments alone",
    [STAGE_3_OUTSIDE] = "24 with a stage over 2", [EMPTY_SLICE] = "empty slices",
    [SHARED_TARGET] = "parts: a target for two jobs in a row", [SHARED_ARGS] = "arguments for two jobs in a row",
    [OVERLAPPING] = "overlapping",
    [UP_TO_END] = "up to the end", [EMPTY_INSIDE] = "empty inside", [EMPTY_AT_END] = "empty at the end",
    [EMPTY_PAST] = "empty past the end",
    [BYTE_OUTSIDE] = "a byte outside", [START_TOP] = "starts of 2^64 - 1", [LEN_TOP] = "lengths of 2^64 - 1", [SUM_2_64] = "sums of 2^64",
    [WRAPS_INSIDE] = "sums that wrap to a place inside",
    [STAGE_0] = "stages 0", [STAGE_1] = "1", [STAGE_2] = "2", [STAGE_3] = "3", [STAGE_MORE] = "over 3",
    [NO_BUFFER] = "buffers of no bytes", [FIT_EXACT] = "that end at a record's end", [FIT_SHORT] = "a byte short of it",
    [FIT_OVER] = "a byte over it",
    [SLICE_BEFORE] = "slices before a forbidden page", [SLICE_BEHIND] = "behind one",
    [LIST_BEFORE] = "lists before one", [LIST_BEHIND] = "behind one",
    [OUT_BEFORE] = "buffers before one", [OUT_BEHIND] = "behind one",
    [FIRST_REFUSED] = "accepted calls: the first job refused and a later one not",
    [LAST_REFUSED] = "the last refused and an earlier one not",
    [ROW_REFUSED] = "two refused in a row between accepted ones", [ALL_REFUSED] = "all refused",
    [NONE_REFUSED] = "none refused", [AFTER_22] = "a record behind a 22",
};

static int overlapping(struct vireo_part p, struct vireo_part q)
{
    return p.len && q.len && !same_part(p, q) && p.start < q.start + q.len && q.start < p.start + p.len;
}

static void note_part(struct vireo_part p, size_t n)
{
    met[UP_TO_END] += p.len && sum(p) == n;
    met[EMPTY_INSIDE] += !p.len && p.start < n, met[EMPTY_AT_END] += !p.len && p.start == n, met[EMPTY_PAST] += !p.len && p.start > n;
    met[BYTE_OUTSIDE] += p.len && sum(p) == (unsigned __int128)n + 1;
    met[START_TOP] += p.start == SIZE_MAX, met[LEN_TOP] += p.len == SIZE_MAX;
    met[SUM_2_64] += sum(p) == (unsigned __int128)1 << 64, met[WRAPS_INSIDE] += sum(p) >> 64 && (size_t)sum(p) <= n;
}

static enum class count_class(size_t n)
{
    static const size_t of[] = {[JOBS_1] = 1, [JOBS_2] = 2, [JOBS_255] = 255, [JOBS_256] = 256, [JOBS_257] = 257};
    for (enum class c = JOBS_0; c <= JOBS_257; c++)
        if (n == of[c] && (of[c] || c == JOBS_0)) return c;
    return n > 257 ? JOBS_MORE : n >= 190 && n <= 210 ? JOBS_200 : JOBS_FEW;
}

static void note_jobs(const struct route *r)
{
    size_t outside_targets = 0, outside_args = 0, outside_jobs = 0, late = 0, n = r->n, c = r->count;
    for (size_t i = 0; i < c; i++) {
        const struct vireo_job *j = &jobs[i], *last = i ? j - 1 : j;
        int t = outside(j->target, n), a = outside(j->args, n);
        note_part(j->target, n), note_part(j->args, n);
        outside_targets += (size_t)t, outside_args += (size_t)a, outside_jobs += t || a, late += j->stage > 2;
        met[STAGE_0 + (j->stage < 4 ? j->stage : 4)]++;
        met[SHARED_TARGET] += i && j->target.len && same_part(j->target, last->target);
        met[SHARED_ARGS] += i && j->args.len && same_part(j->args, last->args);
        met[OVERLAPPING] += !t && !a
            && (overlapping(j->target, j->args) || overlapping(j->args, last->args)
            || overlapping(j->target, last->target));
    }
    met[count_class(c)]++;
    met[ACCEPTED_256] += !due.call.refusal && c == 256, met[REFUSED_23] += due.call.refusal == 23,
        met[REFUSED_24] += due.call.refusal == 24;
    met[BOTH] += due.call.refusal == 23 && outside_jobs, met[EMPTY_SLICE] += !n, drawn_jobs += c;
    if (due.call.refusal != 24) return;
    met[OUTSIDE_256] += c == 256, met[STAGE_3_OUTSIDE] += late != 0, met[OUTSIDE_TARGET] += !outside_args,
        met[OUTSIDE_ARGS] += !outside_targets;
    met[OUTSIDE_FIRST] += c > 1 && outside_jobs == 1 && (outside(jobs[0].target, n) || outside(jobs[0].args, n));
    met[OUTSIDE_LAST] += c > 1 && outside_jobs == 1 && (outside(jobs[c - 1].target, n) || outside(jobs[c - 1].args, n));
}

/* the answers of an accepted route, and in which order they come */
static void note_answers(const struct route *r)
{
    size_t accepted = 0, row = 0;
    int in_a_row = 0, after_22 = 0, seen_22 = 0, first = r->count && due.answer[0].refusal,
        last = r->count && due.answer[r->count - 1].refusal;
    for (size_t i = 0; i < r->count; i++) {
        uint64_t refusal = due.answer[i].refusal;
        answers[refusal < 23 ? refusal : 0]++;
        if (refusal) row++, seen_22 |= refusal == 22;
        else in_a_row |= accepted && row >= 2, row = 0, accepted++, after_22 |= seen_22;
    }
    met[FIRST_REFUSED] += first && accepted, met[LAST_REFUSED] += last && accepted,
        met[ROW_REFUSED] += (uint64_t)in_a_row, met[AFTER_22] += (uint64_t)after_22;
    met[ALL_REFUSED] += r->count && !accepted, met[NONE_REFUSED] += r->count && accepted == r->count;
    met[NO_BUFFER] += !r->room, met[FIT_EXACT] += r->fit == ENDS_AT, met[FIT_SHORT] += r->fit == BYTE_SHORT,
        met[FIT_OVER] += r->fit == BYTE_OVER;
}

/* A length for the buffer, most often at the end of some job's record: where the records end with a buffer that is
 * long enough is known from the jobs alone. */
static int draw_room(struct route *r)
{
    r->fit = NOWHERE, r->room = below(4096);
    if (refused_whole(r)) return 1;
    if (!alone(r, MOST, 0)) return 0;
    size_t total = due.call.value, i = below(r->count);
    for (int more = 4; more && r->count && !due.answer[i].value; more--) i = below(r->count);
    size_t end = r->count ? due.at[i] + due.answer[i].value : 0;
    uint64_t pick = below(8);
    if (pick < 2) r->room = total + below(64);
    else if (pick == 2) r->room = one_in(4) ? 0 : below(total + 1);
    else if (pick == 3 && !one_in(4)) r->room = total;
    else if (r->count && due.answer[i].value)
        r->fit = (enum fit)(ENDS_AT + below(3)), r->fit_job = i,
        r->room = end + (r->fit == BYTE_OVER) - (r->fit == BYTE_SHORT);
    if (r->room > MOST) r->room = MOST, r->fit = NOWHERE;
    return 1;
}

static void try_route(void)
{
    struct route r;
    struct loan l;
    draw_route(&r);
    if (!draw_room(&r) || !work_out(&r)) return;
    note_jobs(&r);
    if (!due.call.refusal) note_answers(&r);
    attempt(&r, &l);
    met[SLICE_BEFORE + !l.bytes.ends] += r.n != 0, met[LIST_BEFORE + !l.list.ends] += r.count != 0,
        met[OUT_BEFORE + !l.out.ends] += r.room != 0;
}

static void run(uint64_t routes, uint64_t seed)
{
    double start = now();
    state = seed;
    for (route_number = 0; route_number < routes; route_number++) {
        if (route_number % 1024 == 0) progress(route_number, routes, "routes", start);
        try_route();
    }
    end_progress();
}

static struct fault plant(int i)
{
    batch = wrong[i].call;
    return (struct fault){wrong[i].name, wrong[i].check};
}

/* what was met, a line for each group; 16 is typing's alone, and no number lies between 16 and 21 */
static int print_met(void)
{
    int missing = 0;
    printf("  jobs: accepted %" PRIu64 "; refused", answers[0]);
    for (int n = 1; n < 23; n++)
        if (answers[n]) printf(" %d: %" PRIu64, n, answers[n]);
    for (int c = 0; c < CLASSES; c++) {
        int begins = c == JOBS_0 || c == ACCEPTED_256 || c == SHARED_TARGET || c == STAGE_0 || c == NO_BUFFER
            || c == SLICE_BEFORE || c == FIRST_REFUSED;
        printf("%s%s %" PRIu64, begins ? "\n  " : ", ", classes[c], met[c]);
    }
    for (int c = 0; c < CLASSES; c++)
        if (!met[c]) printf("%s %s", missing++ ? "," : "\n  did not come up:", classes[c]);
    for (int n = 1; n < 23; n++)
        if (!answers[n] && (n < 16 || n > 20)) printf("%s refusal %d", missing++ ? "," : "\n  did not come up:", n);
    printf(missing ? "\n" : "\n  every one of these came up\n");
    return missing;
}

static int report(uint64_t routes, uint64_t seed, double seconds)
{
    printf("%" PRIu64 " routes of seed %" PRIu64 " in %.1f s: %.0f a second, %" PRIu64 " jobs\n", routes, seed, seconds,
        (double)routes / seconds, drawn_jobs);
    int missing = print_met();
    uint64_t all = print_checks();
    printf("%" PRIu64 " routes with written answers, %" PRIu64 " answered otherwise; with %" PRIu64 " drawn ones, %" PRIu64
           " faults\n", written_down, otherwise, routes, all);
    return all || otherwise || (missing && routes >= REQUIRED);
}

int main(int argc, char **argv)
{
    int with_faults = argc > 1 && !strcmp(argv[1], "--planted");
    argc -= with_faults, argv += with_faults;
    if (argc != 3) { fprintf(stderr, "usage: batch [--planted] ROUTES SEED, with the lists on standard input\n"); return 2; }
    uint64_t routes = strtoull(argv[1], 0, 10), seed = strtoull(argv[2], 0, 10);
    read_lists(stdin);
    if (!listed || !routes) { fprintf(stderr, "no lists or no routes\n"); return 2; }
    make_regions(PLACES, SLICE_MOST + GUARD);
    draw_before();
    catch_signals();
    if (with_faults) return run_planted(WRONG, plant, run, routes, seed, "routes");
    run_written();
    double start = now();
    run(routes, seed);
    return report(routes, seed, now() - start);
}
