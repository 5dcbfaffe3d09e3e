/* The third demand of document 00 on the answers of the two entries, from standard input: the `call_ctor` lines of
 * the lists, each at all three stages.
 *
 * Typing gets the types of the arguments, worked out from their records by reader.h, and building the arguments; the
 * target is the same. Whether every literal fits is worked out here, from the words of documents 01 and 02 and with
 * the machine's own floats, so that "exactly when" is tried in both directions. The lists' own answers are not used.
 * Exits 1 where anything is against the demand, or where no value was built.
 */
#include <float.h>
#include <math.h>
#include "records.h"
#include "reader.h"

static uint8_t types[MOST + TYPE_ROOM], named[MOST], built[MOST], again[MOST], target_was[MOST], args_was[MOST];

/* the number of a literal of kind 1 to 5; one of 64 bits is rounded, which moves it across none of the bounds below */
static double number(const uint8_t *v)
{
    int64_t i;
    int32_t s;
    uint32_t u;
    double d;
    float f;
    memcpy(&i, v + 3, 8), memcpy(&s, v + 3, 4), memcpy(&u, v + 3, 4), memcpy(&d, v + 3, 8), memcpy(&f, v + 3, 4);
    return v[2] == 1 ? (double)i : v[2] == 2 ? d : v[2] == 3 ? s : v[2] == 4 ? u : f;
}

/* how a call takes literals: by the scalar constructor at a stage, or by conversion */
struct step { int made, stage; };

/* whether a literal fits the kind it must become; a comparison with NaN is false */
static int fits(const uint8_t *v, int kind, struct step by)
{
    int from = v[2];
    if (from == kind || from == 0 || kind == 0) return 1;
    if (kind == 3) return from != 1 || (number(v) >= INT32_MIN && number(v) <= INT32_MAX);
    if (kind == 4) return from != 1 || (number(v) >= 0 && number(v) <= UINT32_MAX);
    if (by.made && by.stage == 2) return 1; /* 21 is said at Const and, by document 02, at Override */
    if (kind == 5) return from != 2 || (by.made ? fabs(number(v)) <= FLT_MAX : fabs(number(v)) < 0x1.ffffffp127);
    if (kind == 6) return by.made ? fabs(number(v)) <= 65504 : fabs(number(v)) < 65520;
    return 1;
}

/* whether each literal of a value fits where it lands in the type; the value is passed over */
static int lands(const uint8_t **value, const uint8_t *t, struct step by)
{
    const uint8_t *v = *value;
    int all = 1, abstract;
    if (v[1] == 's') {
        *value += 11;
        return fits(v, t[t[1] == 's' ? 2 : t[1] == 'v' ? 5 : 6], by);
    }
    *value += v[1] == 'v' ? 3 : v[1] == 'u' ? 6 : 4;
    if (v[1] == 'u') {
        t += 6;
        for (size_t i = 0; i < u16(v + 4); i++, t = past_type(t, &abstract)) all &= lands(value, t, by);
    } else
        for (size_t i = 0; i < (v[1] == 'a' ? u16(v + 2) : v[2]); i++) all &= lands(value, v[1] == 'a' ? t + 4 : t, by);
    return all;
}

/* the same for all arguments: in an array each lands in the element type, in a struct in its member, else in the whole */
static int all_fit(size_t an, struct step by)
{
    const uint8_t *at = args, *t = named + (named[1] == 'a' ? 4 : named[1] == 'u' ? 6 : 0);
    int all = 1, abstract;
    while (at < args + an) {
        all &= lands(&at, t, by);
        if (named[1] == 'u') t = past_type(t, &abstract);
    }
    return all;
}

enum outcome { AGAINST, BUILT, REFUSED, UNFIT, MISCOUNTED, OUTSIDE, OUTCOMES };

static enum outcome tried(int stage, size_t tn, size_t an)
{
    int abstract = 0;
    if (target[0] == 'T' && (target[1] == 'r' || (past_type(target, &abstract), abstract))) return OUTSIDE;
    size_t n = 0, count = 0, type;
    for (size_t at = 0, len; at < an; at += len, n += type, count++)
        if (!(len = value_front(args + at, an - at, DEPTH_MOST, types + n, &type))) return AGAINST;
    memcpy(target_was, target, tn), memcpy(args_was, args, an);
    struct vireo_answer t = vireo_type_ctor(target, tn, types, n, named, MOST);
    struct vireo_answer b = vireo_call_ctor((uint8_t)stage, target, tn, args, an, built, MOST);
    if (memcmp(target_was, target, tn) || memcmp(args_was, args, an)) return AGAINST;
    if (t.refusal) return b.refusal ? REFUSED : AGAINST;

    /* "the constructor makes it for a scalar target, for one vector into a vector type and for one matrix into a matrix type" */
    struct step by = {target[0] == 'T'
        && (target[1] == 's' || (count == 1 && args[1] == target[1] && (target[1] == 'v' || target[1] == 'm'))), stage};
    if (!all_fit(an, by)) {
        int to = target[target[1] == 's' ? 2 : target[1] == 'v' ? 5 : 6];
        uint64_t wanted = by.made ? (to == 3 || to == 4 ? 15 : 21) : target[0] == 'Q' || target[1] == 'm' ? 10 : 9;
        return b.refusal == wanted ? UNFIT : AGAINST;
    }
    if (target[0] == 'T' && target[1] == 'a' && count && count != u16(target + 2))
        return b.refusal == 8 && b.wanted == u16(target + 2) && b.given == count ? MISCOUNTED : AGAINST;
    if (b.refusal) return AGAINST;
    return value_front(built, b.value, DEPTH_MOST, again, &type) == b.value && type == t.value
        && !memcmp(again, named, type) ? BUILT : AGAINST;
}

int main(void)
{
    static char text[4 * MOST], t[2 * MOST], a[2 * MOST];
    uint64_t met[OUTCOMES] = {0}, lines = 0;
    while (fgets(text, sizeof text, stdin)) {
        if (sscanf(text, "%*15s call_ctor %*3s %2097151s %2097151s", t, a) != 2) continue;
        size_t tn = unhex(t, target), an = unhex(a, args);
        lines++;
        for (int stage = 0; stage < 3; stage++) {
            enum outcome o = tried(stage, tn, an);
            if (met[o]++ < 5 && o == AGAINST) fprintf(stderr, "against the third demand at stage %d: %.200s\n", stage, text);
        }
    }
    printf("the third demand on %" PRIu64 " calls at three stages: %" PRIu64 " built with the type named, %" PRIu64
           " refused by typing and by building, %" PRIu64 " with a literal that does not fit, %" PRIu64
           " with another count than the array's, %" PRIu64 " outside it, %" PRIu64 " against it\n",
           lines, met[BUILT], met[REFUSED], met[UNFIT], met[MISCOUNTED], met[OUTSIDE], met[AGAINST]);
    return met[AGAINST] != 0 || !met[BUILT];
}
