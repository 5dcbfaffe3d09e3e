/* The entries against the Rust's answers, from standard input: lines of reference/answers.txt, of
 * reference/stages.txt or of `reference/run answers`.
 *
 * Each call gets a buffer with guard bytes on both sides: a refusal must leave it as it was, a record must end where
 * it says and touch nothing past its end; an accepted call is made again with a buffer that is exactly long enough
 * and with one that is a byte too short. NaN is compared with NaN where the list says that one was made; the
 * departures of document 01 are told by the line's class (reference/README.md). Exits 1 where anything differs.
 */
#include "records.h"

static uint8_t want[MOST];

/* every NaN of F32 and F16 as one: both records have the same marks, so they are walked together */
static int same_but_nan(const uint8_t *a, const uint8_t *b, size_t n)
{
    for (size_t i = 0; i < n; i++) {
        if (n - i >= 11 && a[i] == 'V' && a[i + 1] == 's' && !memcmp(a + i, b + i, 3) && (a[i + 2] == 5 || a[i + 2] == 6)) {
            uint64_t x, y, inf = a[i + 2] == 5 ? 0x7f800000 : 0x7c00, mask = a[i + 2] == 5 ? 0x7fffffff : 0x7fff;
            memcpy(&x, a + i + 3, 8);
            memcpy(&y, b + i + 3, 8);
            if ((x & mask) > inf && (y & mask) > inf) { i += 10; continue; }
        }
        if (a[i] != b[i]) return 0;
    }
    return 1;
}

/* a line of the list, but for the call itself */
struct line { char class[16], told[8], value[2 * MOST]; uint64_t wanted, given; };

/* a NaN does not fit by conversion: 10 where the rules say 10 for a literal that does not convert, else 9 */
static uint64_t nan_refusal(enum entry entry)
{
    return entry == CALL_CTOR && (target[0] == 'Q' || target[1] == 'm') ? 10 : 9;
}

/* how many type records lie in the arguments of a typing */
static uint64_t types_given(size_t an)
{
    uint64_t n = 0;
    int abstract;
    for (const uint8_t *at = args; at < args + an; n++) at = past_type(at, &abstract);
    return n;
}

static int agrees(enum entry entry, const struct line *l, size_t an, struct vireo_answer r)
{
    if (!strcmp(l->class, "nan-fits")) return r.refusal == nan_refusal(entry);
    if (!strcmp(l->class, "rows")) return r.refusal == 14;
    if (!strcmp(l->class, "wrap")) return r.refusal == 8 && r.wanted == target[2] && r.given == types_given(an);
    if (strcmp(l->told, "ok")) return r.refusal == strtoull(l->value, 0, 10) && r.wanted == l->wanted && r.given == l->given;
    size_t n = unhex(l->value, want);
    return !r.refusal && r.value == n
        && (!strcmp(l->class, "nan-bits") ? same_but_nan(space + GUARD, want, n) : !memcmp(space + GUARD, want, n));
}

static int replayed(enum entry entry, int stage, const struct line *l, size_t tn, size_t an)
{
    struct vireo_answer r = call(entry, stage, tn, an, ROOM);
    if (!agrees(entry, l, an, r) || !untouched(ROOM, r.refusal ? 0 : r.value)) return 0;
    if (r.refusal) return 1;
    uint64_t n = r.value;
    r = call(entry, stage, tn, an, n);
    if (r.refusal || r.value != n || !untouched(n, n)) return 0;
    r = call(entry, stage, tn, an, n - 1);
    return r.refusal == 22 && untouched(n - 1, 0);
}

int main(void)
{
    static char text[4 * MOST], entry[32], stage[4], t[2 * MOST], a[2 * MOST];
    static struct line l;
    uint64_t ranks = 0, calls[3] = {0}, wrong = 0;
    while (fgets(text, sizeof text, stdin)) {
        l.value[0] = 0, l.wanted = l.given = 0;
        if (text[0] == '#' || sscanf(text, "%15s %31s %3s %2097151s %2097151s %7s %2097151s %" SCNu64 " %" SCNu64,
            l.class, entry, stage, t, a, l.told, l.value, &l.wanted, &l.given) < 6) continue;
        size_t tn = unhex(t, target), an = unhex(a, args);
        int same = 1;
        if (!strcmp(entry, "conversion_rank")) {
            struct vireo_answer r = vireo_conversion_rank(target, tn, args, an);
            same = !strcmp(l.told, "rank") ? !r.refusal && r.value == strtoull(l.value, 0, 10) : r.refusal == strtoull(l.value, 0, 10);
            ranks++;
        } else if (!strcmp(entry, "convert_to")) {
            same = replayed(CONVERT_TO, 0, &l, tn, an);
            calls[CONVERT_TO]++;
        } else if (!strcmp(entry, "type_ctor")) {
            same = replayed(TYPE_CTOR, 0, &l, tn, an);
            calls[TYPE_CTOR]++;
        } else if (!strcmp(entry, "call_ctor"))
            for (int s = 0; s < 3; s++)
                if (stage[0] == '*' || stage[0] == '0' + s) {
                    same = same && replayed(CALL_CTOR, s, &l, tn, an);
                    calls[CALL_CTOR]++;
                }
        if (!same && wrong++ < 5) fprintf(stderr, "differs: %.200s\n", text);
    }
    printf("%" PRIu64 " ranks, %" PRIu64 " conversions, %" PRIu64 " builds and %" PRIu64
           " typings of the Rust replayed, %" PRIu64 " differ\n", ranks, calls[CONVERT_TO], calls[CALL_CTOR],
           calls[TYPE_CTOR], wrong);
    return wrong != 0 || !(ranks + calls[0] + calls[1] + calls[2]);
}
