/* Damaged records, and calls at the limits, with the answers that document 01 gives. Exits 1 where anything differs. */
#include "records.h"

static uint64_t done, bad;
static void told(const char *what, int same, uint64_t refusal, uint64_t expected)
{
    done++;
    if (!same && bad++ < 10) fprintf(stderr, "%s: refusal %" PRIu64 ", document 01 says %" PRIu64 "\n", what, refusal, expected);
}
static void expect(const char *what, size_t tn, size_t an, uint64_t refusal)
{
    struct vireo_answer r = call(CONVERT_TO, 0, tn, an, ROOM);
    told(what, r.refusal == refusal && untouched(ROOM, r.refusal ? 0 : r.value), r.refusal, refusal);
}
static void expect_rank(const char *what, size_t tn, size_t an, uint64_t refusal)
{
    struct vireo_answer r = vireo_conversion_rank(target, tn, args, an);
    told(what, r.refusal == refusal, r.refusal, refusal);
}
/* a build: the refusal, or a record of that length */
static void expect_build(const char *what, int stage, size_t tn, size_t an, size_t room, uint64_t refusal, uint64_t length)
{
    struct vireo_answer r = call(CALL_CTOR, stage, tn, an, room);
    told(what, r.refusal == refusal && r.value == length && untouched(room, length), r.refusal, refusal);
}

/* a typing: the whole answer, and where it is accepted the record */
static void expect_type(const char *what, size_t tn, size_t an, size_t room, struct vireo_answer e, const void *record)
{
    struct vireo_answer r = call(TYPE_CTOR, 0, tn, an, room);
    int same = r.refusal == e.refusal && r.value == e.value && r.wanted == e.wanted && r.given == e.given && untouched(room, e.value);
    told(what, same && (e.refusal || !memcmp(space + GUARD, record, e.value)), r.refusal, e.refusal);
}
static void expect_no_type(const char *what, size_t tn, size_t an, uint64_t refusal)
{
    expect_type(what, tn, an, ROOM, (struct vireo_answer){refusal, 0, 0, 0}, 0);
}

static void damaged(void)
{
    size_t tn, an;
    /* depth 15 passes, 16 is malformed, in the target and in the argument */
    tn = nest_type(target, 15), an = nest_value(args, 15); expect("depth 15", tn, an, 0);
    tn = nest_type(target, 16); expect("target of depth 16", tn, an, 1);
    tn = nest_type(target, 15), an = nest_value(args, 16); expect("argument of depth 16", tn, an, 2);
    tn = nest_type(target, 15), an = nest_type(args, 15); expect_rank("rank at depth 15", tn, an, 0);
    an = nest_type(args, 16); expect_rank("rank of depth 16", tn, an, 2);
    /* 4,096 bytes pass, 4,097 do not */
    tn = long_type(target, 1, 359), an = long_type(args, 1, 359); expect_rank("4,096 bytes", tn, an, 0);
    tn = long_type(target, 2, 357); expect_rank("a target of 4,097 bytes", tn, an, 1);
    tn = long_type(target, 1, 359), an = long_type(args, 2, 357); expect_rank("an argument of 4,097 bytes", tn, an, 2);
    for (int members = 1023; members <= 1024; members++) {
        tn = wide_type(target, members), an = wide_type(args, members);
        expect_rank("members", tn, an, members == 1023 ? 0 : 1);
    }
    /* every truncation of a long argument and of its target */
    tn = nest_type(target, 15), an = nest_value(args, 15);
    for (size_t cut = 0; cut < an; cut++) expect("cut argument", tn, cut, 2);
    for (size_t cut = 0; cut < tn; cut++) expect("cut target", cut, an, 1);
    expect("a byte more", tn, an + 1, 2);
    /* flipped marks: every bit of the argument's first 90 bytes, which are marks, identities and counts; identity
     * bits make another type (9) */
    for (size_t i = 0; i < 90; i++)
        for (int bit = 0; bit < 8; bit++) {
            args[i] ^= (uint8_t)(1 << bit);
            expect("flipped bit", tn, an, i % 6 == 2 || i % 6 == 3 ? 9 : 2);
            args[i] ^= (uint8_t)(1 << bit);
        }
    /* counts one off, kinds, payloads */
    memcpy(target, "Ts\0", 3); memcpy(args, "Vs\0\2\0\0\0\0\0\0\0", 11); expect("Bool 2", 3, 11, 2);
    memcpy(target, "Ts\4", 3); memcpy(args, "Vs\4\0\0\0\0\1\0\0\0", 11); expect("a high byte of U32", 3, 11, 2);
    memcpy(target, "Ts\6", 3); memcpy(args, "Vs\6\0\0\1\0\0\0\0\0", 11); expect("a high byte of F16", 3, 11, 2);
    memcpy(target, "Ts\7", 3); expect("kind 7", 3, 11, 1);
    memcpy(target, "Tv\5Ts\5", 6); expect("a vector of 5", 6, 11, 1);
    memcpy(target, "Tm\2\2Ts\3", 7); expect("a matrix of I32", 7, 11, 1);
    memcpy(target, "Ta\0\0Ts\5", 7); expect("an array of none", 7, 11, 1);
    memcpy(target, "Qv\2", 3); expect("a shape", 3, 0, 1);
    memcpy(target, "Ts\5", 3); expect("no argument", 3, 0, 2);
    memcpy(args, "Vs\5\0\0\0\0\0\0\0\0Vs\5\0\0\0\0\0\0\0\0", 22); expect("two arguments", 3, 22, 2);
    memcpy(target, "Tv\2Ts\5", 6); memcpy(args, "Vv\2Vs\5\0\0\0\0\0\0\0\0Vs\6\0\0\0\0\0\0\0\0", 25);
    expect("two kinds in a vector", 6, 25, 2);
    memcpy(args, "Vv\3Vs\5\0\0\0\0\0\0\0\0Vs\5\0\0\0\0\0\0\0\0", 25); expect("a count one off", 6, 25, 2);
    memcpy(target, "Ta\2\0Ts\5", 7); memcpy(args, "Va\2\0Vs\5\0\0\0\0\0\0\0\0Vs\3\0\0\0\0\0\0\0\0", 26);
    expect("two types in an array", 7, 26, 2);
    memcpy(target, "TrTs\5", 5); memcpy(args, "Ts\5", 3); expect_rank("rank to a runtime-sized array", 5, 3, 9);
}

static void builds(void)
{
    size_t tn, an, most = MOST;
    /* 0, 1 and 65,535 arguments; one more is 2 */
    memcpy(target, "Qa", 2);
    expect_build("Qa of none", 0, 2, 0, ROOM, 11, 0);
    an = literals(args, 1, 1); expect_build("Qa of one", 0, 2, an, ROOM, 0, 15);
    an = literals(args, 65535, 1); expect_build("Qa of 65,535", 0, 2, an, most, 0, 4 + 65535 * 11);
    expect_build("exactly long enough", 0, 2, an, 4 + 65535 * 11, 0, 4 + 65535 * 11);
    expect_build("a byte too short", 0, 2, an, 3 + 65535 * 11, 22, 0);
    an = literals(args, 65536, 1); expect_build("Qa of 65,536", 0, 2, an, most, 2, 0);
    tn = arrays(target, 1), an = literals(args, 65535, 2); expect_build("an array of 65,535", 2, tn, an, most, 0, 4 + 65535 * 11);
    an = literals(args, 65534, 2); expect_build("one too few", 2, tn, an, most, 8, 0);
    memcpy(target, "TrTs\5", 5); expect_build("a runtime-sized array", 1, 5, an, most, 0, 4 + 65534 * 11);
    expect_build("a runtime-sized array of none", 1, 5, 0, most, 4, 0);
    /* 1,023 members */
    tn = wide_type(target, 1023), an = literals(args, 1023, 1); expect_build("1,023 members", 0, tn, an, ROOM, 0, 6 + 1023 * 11);
    an = literals(args, 1022, 1); expect_build("1,022 for 1,023 members", 0, tn, an, ROOM, 8, 0);
    tn = wide_type(target, 1024), an = literals(args, 1024, 1); expect_build("1,024 members", 0, tn, an, ROOM, 1, 0);
    /* depth 15: the zero value, a build from its member, and the same depth in an argument */
    tn = nest_type(target, 15); expect_build("zero of depth 15", 0, tn, 0, ROOM, 0, 15 * 6 + 11);
    an = nest_value(args, 14); expect_build("a member of depth 14", 0, tn, an, ROOM, 0, 15 * 6 + 11);
    an = nest_value(args, 15); expect_build("a member of depth 15", 0, tn, an, ROOM, 9, 0);
    an = nest_value(args, 16); expect_build("an argument of depth 16", 0, tn, an, ROOM, 2, 0);
    memcpy(target, "Qa", 2);
    an = nest_value(args, 14); expect_build("Qa of depth 14", 0, 2, an, ROOM, 0, 4 + 14 * 6 + 11);
    an = nest_value(args, 15); expect_build("Qa of depth 15", 0, 2, an, ROOM, 2, 0);
    memcpy(target, "Qv\2", 3); expect_build("Qv of depth 15", 0, 3, an, ROOM, 8, 0);
    tn = nest_type(target, 16); expect_build("a target of depth 16", 0, tn, 0, ROOM, 1, 0);
    /* the order of the first refusals */
    expect_build("stage 3 before a bad target", 3, tn, 0, ROOM, 3, 0);
    expect_build("stage 255", 255, 0, 0, ROOM, 3, 0);
    expect_build("a bad target before a bad argument", 2, 1, 1, ROOM, 1, 0);
    /* zero values, measured: one array of 5,957 fills 65,531 bytes; nested ones are past any buffer and then past 64 bits */
    memcpy(target, "Ta\105\27Ts\5", 7);
    expect_build("a zero array that fits", 0, 7, 0, ROOM, 0, 65531);
    expect_build("a zero array that just fits", 0, 7, 0, 65531, 0, 65531);
    expect_build("a zero array that misses by one", 0, 7, 0, 65530, 22, 0);
    for (int n = 2; n <= 15; n++) { tn = arrays(target, n); expect_build("nested zero arrays", 0, tn, 0, most, 22, 0); }
    memcpy(target, "Ts\5", 3);
    expect_build("an empty buffer", 0, 3, 0, 0, 22, 0);
    expect_build("no arguments", 0, 3, 0, ROOM, 0, 11);
}

static void typings(void)
{
    size_t tn, an;
    static uint8_t record[4096];
    /* a vector's total is a whole number: 256 and 260 components are too many, also where a byte of the total would
     * say 0 or 4; given is the number of arguments */
    memcpy(target, "Tv\4Ts\5", 6);
    an = repeat(args, 1, "Tv\4Ts\5", 6); expect_type("one vec4", 6, an, ROOM, (struct vireo_answer){0, 6, 0, 0}, "Tv\4Ts\5");
    an = repeat(args, 64, "Tv\4Ts\5", 6); expect_type("64 vec4", 6, an, ROOM, (struct vireo_answer){8, 0, 4, 64}, 0);
    an = repeat(args, 65, "Tv\4Ts\5", 6); expect_type("65 vec4", 6, an, ROOM, (struct vireo_answer){8, 0, 4, 65}, 0);
    memcpy(target, "Qv\4", 3); expect_type("Qv of 65 vec4", 3, an, ROOM, (struct vireo_answer){8, 0, 4, 65}, 0);
    an = repeat(args, 260, "Ts\1", 3); expect_type("Qv of 260 scalars", 3, an, ROOM, (struct vireo_answer){8, 0, 4, 260}, 0);
    memcpy(target, "Tv\4Ts\5", 6); expect_type("260 scalars", 6, an, ROOM, (struct vireo_answer){8, 0, 4, 260}, 0);
    an = repeat(args, 65535, "Tv\4Ts\5", 6); expect_type("65,535 vec4", 6, an, ROOM, (struct vireo_answer){8, 0, 4, 65535}, 0);
    /* exactly long enough, and a byte too short; a refusal comes before the length */
    an = repeat(args, 4, "Ts\1", 3);
    expect_type("exactly long enough", 6, an, 6, (struct vireo_answer){0, 6, 0, 0}, "Tv\4Ts\5");
    expect_type("a byte too short", 6, an, 5, (struct vireo_answer){22, 0, 0, 0}, 0);
    expect_type("an empty buffer", 6, 0, 0, (struct vireo_answer){22, 0, 0, 0}, 0);
    an = repeat(args, 3, "Ts\1", 3); expect_type("8 before 22", 6, an, 0, (struct vireo_answer){8, 0, 4, 3}, 0);
    /* what is refused whatever the arguments */
    an = repeat(args, 1, "Ts\5", 3);
    memcpy(target, "TrTs\5", 5); expect_no_type("Tr of none", 5, 0, 16); expect_no_type("Tr", 5, an, 16);
    memcpy(target, "Tv\2Ts\1", 6); expect_no_type("an abstract vector type of none", 6, 0, 16);
    expect_no_type("an abstract vector type", 6, an, 16);
    memcpy(target, "Tv\3Ts\2", 6); expect_no_type("another of none", 6, 0, 16);
    memcpy(target, "Ts\1", 3); expect_no_type("an abstract scalar of none", 3, 0, 4); expect_no_type("an abstract scalar", 3, an, 4);
    memcpy(target, "Ts\2", 3); expect_no_type("another scalar of none", 3, 0, 4);
    memcpy(target, "Qa", 2); expect_no_type("Qa of none", 2, 0, 10);
    memcpy(target, "Qm\2\2", 4); expect_no_type("Qm of none", 4, 0, 11);
    memcpy(target, "Qv\2", 3); expect_type("Qv of none", 3, 0, ROOM, (struct vireo_answer){0, 6, 0, 0}, "Tv\2Ts\1");
    /* a counted array's arguments are not counted */
    memcpy(target, "Ta\3\0Ts\3", 7);
    an = repeat(args, 2, "Ts\3", 3); expect_type("two for three", 7, an, ROOM, (struct vireo_answer){0, 7, 0, 0}, target);
    an = repeat(args, 65535, "Ts\1", 3); expect_type("65,535 for three", 7, an, ROOM, (struct vireo_answer){0, 7, 0, 0}, target);
    an = repeat(args, 2, "Ts\5", 3); expect_no_type("an element that does not convert", 7, an, 7);
    /* only building asks for a stage */
    memcpy(target, "Ts\5", 3);
    expect_build("building at stage 3", 3, 3, 0, ROOM, 3, 0);
    expect_type("typing of the same", 3, 0, ROOM, (struct vireo_answer){0, 3, 0, 0}, "Ts\5");
    an = repeat(args, 1, "Tv\2Ts\5", 6); expect_no_type("a scalar of a vector", 3, an, 5);
    /* 1, then 2, then the rest; values and Tr are no argument types */
    memcpy(args, "VsVs", 4); expect_no_type("a bad target before a bad argument", 1, 1, 1);
    memcpy(args, "TrTs\5", 5); expect_no_type("Tr as an argument", 3, 5, 2);
    an = nest_value(args, 0); expect_no_type("a value as an argument", 3, an, 2);
    memcpy(target, "TrTs\5", 5); expect_no_type("a bad argument before 16", 5, an, 2);
    /* the limits on arguments, stricter for Qa */
    memcpy(target, "Qa", 2);
    an = repeat(args, 65535, "Ts\5", 3); expect_type("Qa of 65,535", 2, an, ROOM, (struct vireo_answer){0, 7, 0, 0}, "Ta\377\377Ts\5");
    an = repeat(args, 65536, "Ts\5", 3); expect_no_type("Qa of 65,536", 2, an, 2);
    memcpy(record, "Ta\1\0", 4);
    an = nest_type(args, 14), nest_type(record + 4, 14);
    expect_type("Qa of depth 14", 2, an, ROOM, (struct vireo_answer){0, 4 + an, 0, 0}, record);
    an = nest_type(args, 15); expect_no_type("Qa of depth 15", 2, an, 2);
    an = long_type(args, 0, 360), long_type(record + 4, 0, 360);
    expect_type("Qa of 4,092 bytes", 2, an, ROOM, (struct vireo_answer){0, 4096, 0, 0}, record);
    an = long_type(args, 1, 358); expect_no_type("Qa of 4,093 bytes", 2, an, 2);
    memcpy(target, "Tr", 2);
    tn = 2 + long_type(target + 2, 0, 360); expect_no_type("Tr of 4,094 bytes", tn, 0, 16);
    tn = 2 + long_type(target + 2, 1, 358); expect_no_type("Tr of 4,095 bytes", tn, 0, 1);
    /* every truncation */
    tn = nest_type(target, 15), an = nest_type(args, 14);
    expect_type("a member of depth 14", tn, an, ROOM, (struct vireo_answer){0, tn, 0, 0}, target);
    for (size_t cut = 1; cut < an; cut++) expect_no_type("cut argument", tn, cut, 2);
    for (size_t cut = 0; cut < tn; cut++) expect_no_type("cut target", cut, an, 1);
}

int main(void)
{
    damaged();
    builds();
    typings();
    printf("%" PRIu64 " damaged records and calls at the limits, %" PRIu64 " answered otherwise than document 01 says\n", done, bad);
    return bad != 0;
}
