/* The layout entries, wrong in one way each, to see that the checks of layout.c notice: by a mistake of mistaken.h,
 * or by a fault around the entry. */

static int accepted(struct told t) { return !t.answer.refusal; }

static struct told write_by_mistake(struct lent_call c) { return c.entry == WRITE ? by_mistake(c) : right(c); }
static struct told read_by_mistake(struct lent_call c) { return c.entry == READ ? by_mistake(c) : right(c); }
static struct told of_by_mistake(struct lent_call c) { return c.entry == OF ? by_mistake(c) : right(c); }

/* ---- padding ---- */

/* marks the bytes that scalars have, in a value of that size */
static uint8_t marks[MOST];
static void mark_scalars(struct lent_call c, uint64_t size)
{
    static uint8_t nowhere[MOST];
    const uint8_t *t = type_asked(c);
    memset(marks, 0, size), move_value(MARKING, &t, nowhere, marks);
}

static struct told padding_left(struct lent_call c)
{
    keep_buffer(c);
    struct told r = right(c);
    if (c.entry != WRITE || !accepted(r)) return r;
    mark_scalars(c, r.answer.value);
    for (uint64_t i = 0; i < r.answer.value; i++) if (!marks[i]) c.out[i] = buffer_before[i];
    return r;
}
static struct told padding_of_ones(struct lent_call c)
{
    struct told r = right(c);
    if (c.entry != WRITE || !accepted(r)) return r;
    mark_scalars(c, r.answer.value);
    for (uint64_t i = 0; i < r.answer.value; i++) if (!marks[i]) c.out[i] = 0xff;
    return r;
}

static int padding_set(struct lent_call c)
{
    mark_scalars(c, c.given_n);
    for (size_t i = 0; i < c.given_n; i++) if (!marks[i] && c.given[i]) return 1;
    return 0;
}
static struct told padding_read(struct lent_call c)
{
    struct told r = right(c);
    if (c.entry == READ && accepted(r) && padding_set(c)) c.out[r.answer.value - 8] ^= 1;
    return r;
}
static struct told padding_refused(struct lent_call c)
{
    keep_buffer(c);
    struct told r = right(c);
    if (c.entry != READ || !accepted(r) || !padding_set(c)) return r;
    buffer_back(c);
    return refused(26);
}

/* ---- refusals: let through, taken for another, in another order ---- */

static struct told let_through(struct lent_call c, struct told r, int open) { return r.answer.refusal == 25 && open ? moved(c) : r; }
static int target_is(struct lent_call c, const char *mark) { return c.entry != WRITE && c.target_n >= 2 && !memcmp(c.target, mark, 2); }

static struct told bool_in_array(struct lent_call c)
{
    struct told r = right(c);
    return r.answer.refusal == 25 ? let_through(c, r, type_asked(c)[1] == 'a') : r;
}
static struct told bool_in_struct(struct lent_call c)
{
    struct told r = right(c);
    return r.answer.refusal == 25 ? let_through(c, r, type_asked(c)[1] == 'u') : r;
}
static struct told abstract_matrix(struct lent_call c)
{
    struct told r = right(c);
    return r.answer.refusal == 25 ? let_through(c, r, type_asked(c)[1] == 'm') : r;
}
/* the record's first kind decides for all */
static struct told first_kind_decides(struct lent_call c)
{
    struct told r = right(c);
    if (r.answer.refusal != 25 || target_is(c, "Tr")) return r;
    const uint8_t *t = type_asked(c);
    while (t[1] != 's') t += t[1] == 'v' ? 3 : t[1] == 'u' ? 6 : 4;
    return let_through(c, r, t[2] > 2);
}
static struct told runtime_is_one(struct lent_call c)
{
    return target_is(c, "Tr") && right(c).answer.refusal == 25 ? refused(1) : right(c);
}
static struct told shape_has_no_layout(struct lent_call c)
{
    return target_is(c, "Qv") || target_is(c, "Qa") || target_is(c, "Qm") ? refused(25) : right(c);
}

/* the first of two values is taken */
static struct told two_values(struct lent_call c)
{
    static uint8_t type[TYPE_ROOM];
    size_t n;
    struct told r = right(c);
    if (c.entry != WRITE || r.answer.refusal != 2 || !(c.given_n = value_front(c.given, c.given_n, DEPTH_MOST, type, &n))) return r;
    return right(c);
}

/* the size and the record's length of a type whose kinds don't matter for either */
static wide size_asked(struct lent_call c)
{
    const uint8_t *t = type_asked(c);
    return extent_of(&t).size;
}
static wide length_asked(struct lent_call c)
{
    const uint8_t *t = c.target;
    return value_length(&t);
}
static struct told slice_before_kinds(struct lent_call c)
{
    struct told r = right(c);
    return c.entry == READ && r.answer.refusal == 25 && !target_is(c, "Tr") && size_asked(c) != c.given_n ? refused(26) : r;
}
static struct told room_before_kinds(struct lent_call c)
{
    struct told r = right(c);
    return c.entry == WRITE && r.answer.refusal == 25 && size_asked(c) > c.room ? refused(22) : r;
}
static struct told room_before_kinds_read(struct lent_call c)
{
    struct told r = right(c);
    return c.entry == READ && r.answer.refusal == 25 && !target_is(c, "Tr") && length_asked(c) > c.room ? refused(22) : r;
}
static struct told room_before_slice(struct lent_call c)
{
    struct told r = right(c);
    return c.entry == READ && r.answer.refusal == 26 && length_asked(c) > c.room ? refused(22) : r;
}
static struct told instead(struct lent_call c, uint64_t of, uint64_t with)
{
    struct told r = right(c);
    return r.answer.refusal == of ? refused(with) : r;
}
static struct told no_room_is_26(struct lent_call c) { return c.entry == READ ? instead(c, 22, 26) : right(c); }
static struct told no_room_is_25(struct lent_call c) { return instead(c, 22, 25); }
static struct told kinds_are_one(struct lent_call c) { return c.entry == WRITE ? right(c) : instead(c, 25, 1); }
static struct told kinds_are_two(struct lent_call c) { return c.entry == WRITE ? instead(c, 25, 2) : right(c); }
static struct told malformed_is_25(struct lent_call c) { return instead(c, c.entry == WRITE ? 2 : 1, 25); }

static struct told longer_slice(struct lent_call c)
{
    struct told r = right(c);
    wide size = c.entry == READ && r.answer.refusal == 26 ? size_asked(c) : 0;
    if (!size || size >= c.given_n) return r;
    c.given_n = (size_t)size;
    return right(c);
}
static struct told shorter_slice(struct lent_call c)
{
    static uint8_t filled[MOST];
    struct told r = right(c);
    wide size = c.entry == READ && r.answer.refusal == 26 ? size_asked(c) : 0;
    if (size <= c.given_n || size > MOST) return r;
    memset(filled, 0, (size_t)size), memcpy(filled, c.given, c.given_n);
    c.given = filled, c.given_n = (size_t)size;
    return right(c);
}
static struct told size_of_63_bits(struct lent_call c)
{
    struct told r = right(c);
    return c.entry == OF && r.answer.value >> 63 ? refused(22) : r;
}
static struct told size_of_32_bits(struct lent_call c)
{
    struct told r = right(c);
    if (c.entry == OF) r.answer.value &= 0xffffffff;
    return r;
}

/* ---- lengths and bytes ---- */

static struct told size_of_one_more(struct lent_call c)
{
    struct told r = right(c);
    if (c.entry == OF && accepted(r)) r.answer.value++;
    return r;
}
static struct told a_byte_longer(struct lent_call c)
{
    struct told r = right(c);
    if (c.entry != OF && accepted(r)) r.answer.value++;
    return r;
}
static struct told a_byte_shorter(struct lent_call c)
{
    struct told r = right(c);
    if (c.entry != OF && accepted(r)) r.answer.value--;
    return r;
}
static struct told exact_is_too_short(struct lent_call c)
{
    keep_buffer(c);
    struct told r = right(c);
    if (c.entry == OF || !accepted(r) || r.answer.value != c.room) return r;
    buffer_back(c);
    return refused(22);
}
/* as much as there is room for */
static struct told cut_to_buffer(struct lent_call c)
{
    static uint8_t whole[2 * MOST];
    struct lent_call with_room = c;
    struct told r = right(c);
    if (c.entry == OF || r.answer.refusal != 22) return r;
    with_room.out = whole, with_room.room = sizeof whole;
    if (!accepted(right(with_room))) return r;
    memcpy(c.out, whole, c.room);
    return (struct told){{0, c.room, 0, 0}, 0};
}
static struct told byte_past_result(struct lent_call c)
{
    struct told r = right(c);
    if (c.entry != OF && accepted(r) && c.room > r.answer.value) c.out[r.answer.value] ^= 1;
    return r;
}
static struct told rest_cleared(struct lent_call c)
{
    struct told r = right(c);
    if (c.entry != OF && accepted(r)) memset(c.out + r.answer.value, 0, c.room - r.answer.value);
    return r;
}
static struct told refusal_writes(struct lent_call c)
{
    struct told r = right(c);
    if (!accepted(r) && c.room) c.out[0] ^= 1;
    return r;
}
static struct told refusal_clears(struct lent_call c)
{
    struct told r = right(c);
    if (r.answer.refusal == 22) memset(c.out, 0, c.room);
    return r;
}
static struct told refusal_has_value(struct lent_call c)
{
    struct told r = right(c);
    if (r.answer.refusal == 26) r.answer.value = c.given_n;
    return r;
}
static struct told refusal_has_counts(struct lent_call c)
{
    struct told r = right(c);
    if (r.answer.refusal == 26) r.answer.given = c.given_n;
    return r;
}
static struct told refusal_has_align(struct lent_call c)
{
    struct told r = right(c);
    if (c.entry == OF && !accepted(r)) r.align = 4;
    return r;
}

/* ---- outside what is lent, or changed in it ---- */

static volatile uint8_t looked_at;
static struct told reads_past_given(struct lent_call c) { if (c.entry != OF) looked_at = c.given[c.given_n]; return right(c); }
static struct told reads_before_target(struct lent_call c) { if (c.entry != WRITE) looked_at = c.target[-1]; return right(c); }
static struct told writes_past_buffer(struct lent_call c) { if (c.entry != OF) c.out[c.room] ^= 1; return right(c); }
static struct told writes_before_buffer(struct lent_call c) { if (c.entry != OF) c.out[-1] ^= 1; return right(c); }
static struct told sets_off_alarm(struct lent_call c) { if (c.entry == READ && c.given_n > 4096) raise(SIGALRM); return right(c); }
static struct told changes_memory(struct lent_call c)
{
    struct told r = right(c);
    if (c.entry == READ && c.given_n) c.given[c.given_n / 2] ^= 1;
    return r;
}
static struct told changes_target(struct lent_call c)
{
    struct told r = right(c);
    if (c.entry != WRITE && c.target_n) c.target[c.target_n - 1] ^= 1;
    return r;
}
static struct told changes_argument(struct lent_call c)
{
    struct told r = right(c);
    if (c.entry == WRITE && c.given_n) c.given[0] ^= 1;
    return r;
}

/* what the checks must notice, each by the one that is there for it */
static const struct { const char *name; enum check check; struct told (*call)(struct lent_call); enum mistake mistake; } wrong[] = {
    {"a vec3 is aligned to three scalars, told", ALIGN, of_by_mistake, VEC3_TO_THREE},
    {"a vec3 is aligned to three scalars, in WGSL's table", TABLE, by_mistake, VEC3_TO_THREE},
    {"a vec3 is aligned to three scalars, in memory", BYTES, by_mistake, VEC3_TO_THREE},
    {"a vec2 is aligned to four scalars", ALIGN, by_mistake, VEC2_TO_FOUR},
    {"a vec2 is aligned to four scalars, in WGSL's table", TABLE, by_mistake, VEC2_TO_FOUR},
    {"vectors are aligned as their scalars", BYTES, by_mistake, VECTOR_AS_SCALAR},
    {"a vec3 takes four scalars", SIZE, by_mistake, VEC3_TAKES_FOUR},
    {"a vec3 takes four scalars, in WGSL's structs", TABLE, write_by_mistake, VEC3_TAKES_FOUR},
    {"a matrix without its columns' padding", BYTES, write_by_mistake, TIGHT_COLUMNS},
    {"a matrix without its columns' padding, told", TABLE, of_by_mistake, TIGHT_COLUMNS},
    {"a matrix is laid by rows", BYTES, write_by_mistake, ROWS_FIRST},
    {"a matrix is read by rows", BYTES, read_by_mistake, ROWS_FIRST},
    {"an array's stride is its element's size", SIZE, by_mistake, STRIDE_IS_SIZE},
    {"an array's stride is a multiple of 16", SIZE, by_mistake, STRIDE_OF_16},
    {"an array's stride is a multiple of 16, in WGSL's structs", TABLE, write_by_mistake, STRIDE_OF_16},
    {"a struct's size is not rounded up", SIZE, by_mistake, STRUCT_NOT_ROUNDED},
    {"a struct's size is not rounded up, in WGSL's structs", TABLE, of_by_mistake, STRUCT_NOT_ROUNDED},
    {"a member at the next byte", BYTES, by_mistake, NEXT_BYTE},
    {"a member is read at the next byte", BYTES, read_by_mistake, NEXT_BYTE},
    {"a struct is aligned as its first member", ALIGN, by_mistake, FIRST_ALIGNS},
    {"a struct is aligned as its last member", ALIGN, by_mistake, LAST_ALIGNS},
    {"a struct is aligned as its last member, in memory", BYTES, write_by_mistake, LAST_ALIGNS},
    {"F16 as 4 bytes", SIZE, by_mistake, HALF_OF_4},
    {"F16 as 4 bytes, in WGSL's table", TABLE, of_by_mistake, HALF_OF_4},
    {"the high byte first", BYTES, by_mistake, HIGH_BYTE_FIRST},
    {"a NaN is made quiet in writing", BYTES, write_by_mistake, QUIET_NAN},
    {"a NaN is made quiet in reading", BACK, read_by_mistake, QUIET_NAN},
    {"minus zero is lost in writing", BYTES, write_by_mistake, PLUS_ZERO},
    {"minus zero is lost in reading", BACK, read_by_mistake, PLUS_ZERO},
    {"a struct's identity is lost in reading", BACK, read_by_mistake, NO_IDENTITY},
    {"a size past 64 bits is told as what is left of it", NUMBER, of_by_mistake, SIZES_WRAP},
    {"a size past 64 bits is the length of a slice", SLICE, read_by_mistake, SIZES_WRAP},
    {"a size of 64 bits is past 64 bits", NUMBER, size_of_63_bits, NONE},
    {"a size is told in 32 bits", SIZE, size_of_32_bits, NONE},
    {"padding is not written", BYTES, padding_left, NONE},
    {"padding is written as ones", BYTES, padding_of_ones, NONE},
    {"padding is read", PADDING, padding_read, NONE},
    {"padding that is not zero is refused", PADDING, padding_refused, NONE},
    {"Bool is let through in an array", NUMBER, bool_in_array, NONE},
    {"Bool is let through in a struct", NUMBER, bool_in_struct, NONE},
    {"an abstract matrix is let through", NUMBER, abstract_matrix, NONE},
    {"the first kind decides for all", NUMBER, first_kind_decides, NONE},
    {"1 for a runtime-sized array", NUMBER, runtime_is_one, NONE},
    {"25 for a shape", NUMBER, shape_has_no_layout, NONE},
    {"25 for what is malformed", NUMBER, malformed_is_25, NONE},
    {"1 for Bool and abstract kinds", NUMBER, kinds_are_one, NONE},
    {"2 for Bool and abstract kinds", NUMBER, kinds_are_two, NONE},
    {"the first of two values is taken", NUMBER, two_values, NONE},
    {"26 before 25", NUMBER, slice_before_kinds, NONE},
    {"22 before 25 in writing", NUMBER, room_before_kinds, NONE},
    {"22 before 25 in reading", NUMBER, room_before_kinds_read, NONE},
    {"22 before 26", NUMBER, room_before_slice, NONE},
    {"26 for 22", EXACT, no_room_is_26, NONE},
    {"25 for 22", EXACT, no_room_is_25, NONE},
    {"a longer slice is read", SLICE, longer_slice, NONE},
    {"a shorter slice is filled up", SLICE, shorter_slice, NONE},
    {"a size of one more", SIZE, size_of_one_more, NONE},
    {"a size of one more, in WGSL's table", TABLE, size_of_one_more, NONE},
    {"a length of one more", SIZE, a_byte_longer, NONE},
    {"a length of one less", SIZE, a_byte_shorter, NONE},
    {"22 for a buffer that is just long enough", EXACT, exact_is_too_short, NONE},
    {"a result cut to the buffer", EXACT, cut_to_buffer, NONE},
    {"a byte past the result is changed", PAST, byte_past_result, NONE},
    {"the rest of the buffer is cleared", PAST, rest_cleared, NONE},
    {"a refusal writes", REFUSED, refusal_writes, NONE},
    {"22 clears the buffer", REFUSED, refusal_clears, NONE},
    {"a refusal has a value", REFUSED, refusal_has_value, NONE},
    {"a refusal has a count", REFUSED, refusal_has_counts, NONE},
    {"a refusal has an alignment", REFUSED, refusal_has_align, NONE},
    {"a byte past the arguments or the memory is read", ENDS, reads_past_given, NONE},
    {"a byte before the target is read", ENDS, reads_before_target, NONE},
    {"a byte past the buffer is written, beside the forbidden page", ENDS, writes_past_buffer, NONE},
    {"a byte past the buffer is written, in the guard of a result", PAST, writes_past_buffer, NONE},
    {"a byte past the buffer is written, in the guard of a refusal", REFUSED, writes_past_buffer, NONE},
    {"a byte before the buffer is written, beside the forbidden page", ENDS, writes_before_buffer, NONE},
    {"a byte before the buffer is written, in the guard", PAST, writes_before_buffer, NONE},
    {"the alarm that a call which does not end sets off", ENDS, sets_off_alarm, NONE},
    {"the memory is changed", KEEPS, changes_memory, NONE},
    {"the target is changed", KEEPS, changes_target, NONE},
    {"an argument is changed", KEEPS, changes_argument, NONE},
};
enum { WRONG = sizeof wrong / sizeof *wrong };
