/* What the drawn calls of layout.c must show: each class of them is counted where it is met, and one that did not come up is told. */

static const char *const laying_names[LAYINGS] = {[WRITE] = "write_layout", [READ] = "read_layout", [OF] = "layout_of"};

enum class {
    OF_SCALARS, OF_VEC2, OF_VEC3, OF_VEC4, OF_MATRICES, OF_ARRAYS, OF_STRUCTS, ONE_ELEMENT, THOUSAND_ELEMENTS,
    ONE_MEMBER, HUNDRED_MEMBERS, ALL_MEMBERS,
    PADDED_BEFORE, PADDED_END, PADDED_COLUMNS, PADDED_STRIDE, UNPADDED, PADDING_DRAWN,
    QUIET_F32, SIGNALLING_F32, MINUS_F32, QUIET_F16, SIGNALLING_F16, MINUS_F16,
    HOLDS_BOOL, HOLDS_AINT, HOLDS_AFLOAT, BARE_SCALAR, BARE_VECTOR, BARE_MATRIX, BARE_IN_ARRAY, BARE_IN_STRUCT,
    BARE_LAST, BARE_DEEP, RUNTIME,
    SHAPES, NO_TARGET, BAD_TARGET, NO_VALUE, TWO_VALUES, BAD_VALUE,
    BEFORE_26, BEFORE_22_WRITE, BEFORE_22_READ, SLICE_BEFORE_22, MALFORMED_BEFORE_22,
    SLICE_SHORT, SLICE_LONG, SLICE_NONE, SLICE_WRAPS, SLICE_VAST,
    PAST_64, MULTIPLE_OF_64, JUST_PAST_64, JUST_BELOW_64, SIZE_OF_64, SIZE_OF_33,
    ROOM_EXACT, ROOM_SHORT, ROOM_LONG, NO_ROOM, TARGET_BEFORE, TARGET_BEHIND, GIVEN_BEFORE, GIVEN_BEHIND, OUT_BEFORE, OUT_BEHIND, CLASSES
};
static const char *const classes[CLASSES] = {
    [OF_SCALARS] = "arrays of scalars", [OF_VEC2] = "of vec2", [OF_VEC3] = "of vec3", [OF_VEC4] = "of vec4",
    [OF_MATRICES] = "of matrices", [OF_ARRAYS] = "of arrays",
    [OF_STRUCTS] = "of structs", [ONE_ELEMENT] = "of one element", [THOUSAND_ELEMENTS] = "of 1,000 or more",
    [ONE_MEMBER] = "structs of one member",
    [HUNDRED_MEMBERS] = "of 100 to 1,022", [ALL_MEMBERS] = "of 1,023",
    [PADDED_BEFORE] = "padding before a member", [PADDED_END] = "at a struct's end",
    [PADDED_COLUMNS] = "behind columns", [PADDED_STRIDE] = "behind elements",
    [UNPADDED] = "none", [PADDING_DRAWN] = "read with other bytes in it",
    [QUIET_F32] = "F32 scalars: quiet NaN", [SIGNALLING_F32] = "signalling NaN", [MINUS_F32] = "minus zero", [QUIET_F16] = "F16: quiet NaN",
    [SIGNALLING_F16] = "signalling NaN", [MINUS_F16] = "minus zero",
    [HOLDS_BOOL] = "25: Bool", [HOLDS_AINT] = "AbstractInt", [HOLDS_AFLOAT] = "AbstractFloat",
    [BARE_SCALAR] = "as a scalar", [BARE_VECTOR] = "as a vector",
    [BARE_MATRIX] = "as a matrix", [BARE_IN_ARRAY] = "in an array", [BARE_IN_STRUCT] = "in a struct",
    [BARE_LAST] = "only as a struct's last member",
    [BARE_DEEP] = "under four levels or more", [RUNTIME] = "a runtime-sized array",
    [SHAPES] = "1: a shape", [NO_TARGET] = "no target", [BAD_TARGET] = "a malformed one", [NO_VALUE] = "2: no value",
    [TWO_VALUES] = "more than one",
    [BAD_VALUE] = "a malformed one",
    [BEFORE_26] = "25 with a slice of another length", [BEFORE_22_WRITE] = "25 with too short a buffer, written", [BEFORE_22_READ] = "read",
    [SLICE_BEFORE_22] = "26 with too short a buffer", [MALFORMED_BEFORE_22] = "1 or 2 with no buffer",
    [SLICE_SHORT] = "26: a byte short", [SLICE_LONG] = "a byte long", [SLICE_NONE] = "an empty slice",
    [SLICE_WRAPS] = "as long as what 64 bits leave of the size",
    [SLICE_VAST] = "a size past 64 bits",
    [PAST_64] = "sizes past 64 bits", [MULTIPLE_OF_64] = "multiples of 2^64",
    [JUST_PAST_64] = "up to 64 past a multiple", [JUST_BELOW_64] = "up to 64 below 2^64",
    [SIZE_OF_64] = "from 2^63 to below 2^64", [SIZE_OF_33] = "from 2^32 on",
    [ROOM_EXACT] = "buffers that are just long enough", [ROOM_SHORT] = "a byte short", [ROOM_LONG] = "a byte long",
    [NO_ROOM] = "of no bytes",
    [TARGET_BEFORE] = "targets before a forbidden page", [TARGET_BEHIND] = "behind one",
    [GIVEN_BEFORE] = "arguments and memory before one", [GIVEN_BEHIND] = "behind one",
    [OUT_BEFORE] = "buffers before one", [OUT_BEHIND] = "behind one",
};
static uint64_t met[CLASSES];

/* answers by entry and refusal; the types that were written and read, by depth; each scalar, vector and matrix in
 * them, by kind and sides */
enum { ANSWERS = 27 };
static uint64_t answers[LAYINGS][ANSWERS], depths[DEPTH_MOST + 1], leaves[7][5][5];

static int shape_of(const struct node *t) { return t->head[1]; }
static int kind_of(const struct node *t)
{
    while (t->part) t = t->part;
    return t->head[2];
}

static void note_row(const struct node *t)
{
    static const enum class of[] = {['s'] = OF_SCALARS, ['m'] = OF_MATRICES, ['a'] = OF_ARRAYS, ['u'] = OF_STRUCTS};
    met[shape_of(t->part) == 'v' ? OF_VEC2 + t->part->count - 2 : of[shape_of(t->part)]]++;
    met[PADDED_STRIDE] += t->stride > t->part->size;
    met[ONE_ELEMENT] += t->count == 1, met[THOUSAND_ELEMENTS] += t->count >= 1000;
}

static void note_struct(const struct node *t)
{
    wide end = 0;
    for (const struct node *m = t->part; m; end = m->at + m->size, m = m->next) met[PADDED_BEFORE] += m->at > end;
    met[PADDED_END] += t->size > end;
    met[ONE_MEMBER] += t->count == 1, met[HUNDRED_MEMBERS] += t->count >= 100 && t->count < 1023, met[ALL_MEMBERS] += t->count == 1023;
}

/* gives the depth */
static int note_type(const struct node *t)
{
    int deepest = 0, depth;
    switch (shape_of(t)) {
    case 's': leaves[kind_of(t)][0][0]++; return 0;
    case 'v': leaves[kind_of(t)][t->count][0]++; return 1;
    case 'm': leaves[kind_of(t)][t->count][t->part->count]++, met[PADDED_COLUMNS] += t->stride > t->part->size; return 2;
    case 'a': note_row(t); break;
    default: note_struct(t);
    }
    for (const struct node *p = t->part; p; p = p->next)
        if ((depth = note_type(p)) > deepest) deepest = depth;
    return deepest + 1;
}

/* a float by its bits: those of its sign, its infinity and a quiet NaN; the classes are quiet, signalling, minus zero */
static void note_float(uint32_t bits, uint32_t sign, uint32_t infinity, uint32_t quiet, enum class first)
{
    if (bits == sign) met[first + 2]++;
    else if ((bits & ~sign) > infinity) met[first + !(bits & quiet)]++;
}

/* the scalars of a value whose record that is */
static void note_scalars(const struct asked *a, const uint8_t *record)
{
    size_t all = 0;
    for (size_t i = 0; i < scalars_n; i++, all += scalars[i - 1].size) {
        const uint8_t *at = record + scalars[i].record;
        uint32_t bits = at[0] | (uint32_t)at[1] << 8 | (uint32_t)at[2] << 16 | (uint32_t)at[3] << 24;
        if (at[-1] == 5) note_float(bits, 0x80000000, 0x7f800000, 0x400000, QUIET_F32);
        if (at[-1] == 6) note_float(bits, 0x8000, 0x7c00, 0x200, QUIET_F16);
    }
    met[UNPADDED] += all == (a->entry == WRITE ? due.length : a->given.n);
}

/* the kinds without a layout, so many levels down */
static void note_bare(const struct node *t, int level)
{
    if (!t->unlaid) return;
    if (shape_of(t) == 's') met[HOLDS_BOOL + t->head[2]]++, met[BARE_DEEP] += level >= 4;
    for (const struct node *p = t->part; p; p = p->next) note_bare(p, level + 1);
}

/* whether only the last of some members has one */
static int bare_last(const struct node *t)
{
    const struct node *p = t->part;
    if (shape_of(t) != 'u' || t->count == 1) return 0;
    while (p->next && !p->unlaid) p = p->next;
    return !p->next;
}

static void note_25(const struct asked *a)
{
    const struct node *t = due.type;
    if (!t) { met[RUNTIME]++; return; }
    note_bare(t, 0);
    met[BARE_LAST] += (uint64_t)bare_last(t);
    met[BARE_SCALAR] += shape_of(t) == 's', met[BARE_VECTOR] += shape_of(t) == 'v', met[BARE_MATRIX] += shape_of(t) == 'm';
    met[BARE_IN_ARRAY] += shape_of(t) == 'a', met[BARE_IN_STRUCT] += shape_of(t) == 'u';
    met[BEFORE_26] += a->entry == READ && t->size != a->given.n;
    if (a->entry != OF) met[a->entry == WRITE ? BEFORE_22_WRITE : BEFORE_22_READ] += due.length > a->room;
}

/* what 64 bits leave of the target's size */
static uint64_t size_left(const struct asked *a)
{
    const uint8_t *t = a->target.at;
    return extent_of(&t).size;
}

static void note_26(const struct asked *a)
{
    wide size = due.type->size;
    met[SLICE_SHORT] += a->given.n + 1 == size, met[SLICE_LONG] += a->given.n == size + 1, met[SLICE_NONE] += !a->given.n;
    met[SLICE_VAST] += size == TOP, met[SLICE_WRAPS] += size == TOP && a->given.n == size_left(a);
    met[SLICE_BEFORE_22] += due.length > a->room;
}

static void note_malformed(const struct asked *a)
{
    if (a->entry == WRITE)
        met[!a->given.n ? NO_VALUE : arguments_formed(a->given.at, a->given.n, 0, 0, ARGS_MOST).formed ? TWO_VALUES
        : BAD_VALUE]++;
    else met[!a->target.n ? NO_TARGET : target_formed(a->target.at, a->target.n, 1) ? SHAPES : BAD_TARGET]++;
    met[MALFORMED_BEFORE_22] += a->entry != OF && !a->room;
}

static void note_size(const struct asked *a)
{
    wide size = due.type->size;
    met[PAST_64] += size == TOP, met[MULTIPLE_OF_64] += size == TOP && !size_left(a), met[JUST_PAST_64] += size == TOP
        && size_left(a) <= 64;
    met[JUST_BELOW_64] += size < TOP && size >= TOP - 64, met[SIZE_OF_64] += size < TOP && size >= TOP / 2,
        met[SIZE_OF_33] += size < TOP && size >> 32;
}

/* a call whose answer is due, before it is made */
static void note(const struct asked *a, int target_ends, int given_ends, int out_ends)
{
    uint64_t refusal = due.told.answer.refusal;
    answers[a->entry][refusal]++;
    met[TARGET_BEFORE + !target_ends] += a->target.n != 0, met[GIVEN_BEFORE + !given_ends] += a->given.n != 0,
        met[OUT_BEFORE + !out_ends] += a->room != 0;
    if (refusal == 1 || refusal == 2) note_malformed(a);
    if (refusal == 25) note_25(a);
    if (refusal == 26) note_26(a);
    if (refusal != 0 && refusal != 22) return;
    if (a->entry == OF) { note_size(a); return; }
    met[ROOM_EXACT] += due.length == a->room, met[ROOM_SHORT] += due.length == (wide)a->room + 1,
        met[ROOM_LONG] += due.length + 1 == a->room;
    met[NO_ROOM] += !a->room;
    if (refusal) return;
    depths[note_type(due.type)]++;
    note_scalars(a, a->entry == WRITE ? a->given.at : due.bytes);
}

/* ---- what came up ---- */

/* what was met so far: the drawn calls have to show all of it by themselves */
static void forget(void)
{
    memset(met, 0, sizeof met), memset(answers, 0, sizeof answers), memset(depths, 0, sizeof depths), memset(leaves, 0, sizeof leaves);
}

/* whether WGSL has such a scalar (of no sides), vector (of one) or matrix */
static int is_leaf(int kind, int n, int rows) { return n != 1 && rows != 1 && (n || !rows) && (!rows || kind >= 5); }

/* the depths, and how often each scalar, vector and matrix type came at least; gives how many did not come up */
static int print_types(void)
{
    uint64_t least = UINT64_MAX;
    int missing = 0, types = 0;
    printf("  depths 0 to 15 of what was written and read:");
    for (int d = 0; d <= DEPTH_MOST; d++) printf(" %" PRIu64, depths[d]), missing += !depths[d];
    for (int i = 0; i < 4 * 5 * 5; i++) {
        int kind = 3 + i / 25, n = i / 5 % 5, rows = i % 5;
        if (!is_leaf(kind, n, rows)) continue;
        if (leaves[kind][n][rows] < least) least = leaves[kind][n][rows];
        missing += !leaves[kind][n][rows], types++;
    }
    printf("\n  each of the %d scalar, vector and matrix types %" PRIu64 " times or more", types, least);
    if (missing) printf("\n  depths or types that did not come up: %d", missing);
    return missing;
}

static int print_answers(void)
{
    static const char *const due_answers[LAYINGS] = {[WRITE] = "0 2 22 25", [READ] = "0 1 22 25 26", [OF] = "0 1 22 25"};
    int missing = 0;
    for (int e = 0; e < LAYINGS; e++) {
        const char *at = due_answers[e];
        printf("  %-12s accepted %" PRIu64 "; refused", laying_names[e], answers[e][0]);
        for (int n, len; sscanf(at, "%d%n", &n, &len) == 1; at += len) {
            missing += !answers[e][n];
            if (n) printf(" %d: %" PRIu64, n, answers[e][n]);
        }
        printf("\n");
    }
    if (missing) printf("  answers that did not come up: %d\n", missing);
    return missing;
}

static int print_met(void)
{
    int missing = print_answers(), unmet = 0;
    missing += print_types();
    for (int c = 0; c < CLASSES; c++) {
        int begins = c == OF_SCALARS || c == ONE_MEMBER || c == PADDED_BEFORE || c == QUIET_F32 || c == HOLDS_BOOL
            || c == SHAPES || c == BEFORE_26 || c == SLICE_SHORT
            || c == PAST_64 || c == ROOM_EXACT || c == TARGET_BEFORE;
        printf("%s%s %" PRIu64, begins ? "\n  " : ", ", classes[c], met[c]);
    }
    for (int c = 0; c < CLASSES; c++)
        if (!met[c]) printf("%s %s", unmet++ ? "," : "\n  did not come up:", classes[c]);
    printf(missing || unmet ? "\n" : "\n  every one of these came up\n");
    return missing + unmet;
}
