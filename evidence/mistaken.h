/* A second writer and reader of memory, which makes one mistake in the layout: it stands in for the library's
 * entries to see that layout.c and structs.c notice. It must not use the judge's own words for the layout, so it
 * works on the records, and its sizes wrap at 2^64. */

struct lent_call { enum laying entry; uint8_t *target; size_t target_n; uint8_t *given; size_t given_n; uint8_t *out; size_t room; };

static struct told right(struct lent_call c)
{
    struct vireo_layout l;
    switch (c.entry) {
    case WRITE: return (struct told){vireo_write_layout(c.given, c.given_n, c.out, c.room), 0};
    case READ: return (struct told){vireo_read_layout(c.target, c.target_n, c.given, c.given_n, c.out, c.room), 0};
    default: l = vireo_layout_of(c.target, c.target_n); return (struct told){{l.refusal, l.size, 0, 0}, l.align};
    }
}

static struct told refused(uint64_t refusal) { return (struct told){{refusal, 0, 0, 0}, 0}; }

/* ---- the mistake ---- */

static enum mistake {
    NONE, VEC3_TO_THREE, VEC2_TO_FOUR, VECTOR_AS_SCALAR, VEC3_TAKES_FOUR, TIGHT_COLUMNS, ROWS_FIRST, STRIDE_IS_SIZE,
    STRIDE_OF_16, STRUCT_NOT_ROUNDED, NEXT_BYTE,
    FIRST_ALIGNS, LAST_ALIGNS, HALF_OF_4, HIGH_BYTE_FIRST, QUIET_NAN, PLUS_ZERO, NO_IDENTITY, SIZES_WRAP
} mistake;

struct extent { uint64_t size, align; };
static uint64_t next_multiple(uint64_t n, uint64_t align) { return (n + align - 1) / align * align; }
static uint64_t bytes_of_kind(uint8_t kind) { return kind == 6 && mistake != HALF_OF_4 ? 2 : 4; }

static struct extent vector_extent(uint8_t n, uint8_t kind)
{
    uint64_t scalar = bytes_of_kind(kind), to = n == 2 ? 2 : 4;
    if (mistake == VEC3_TO_THREE && n == 3) to = 3;
    if (mistake == VEC2_TO_FOUR) to = 4;
    if (mistake == VECTOR_AS_SCALAR) to = 1;
    return (struct extent){(mistake == VEC3_TAKES_FOUR && n == 3 ? 4 : n) * scalar, to * scalar};
}

static uint64_t column_stride(uint8_t rows, uint8_t kind)
{
    struct extent column = vector_extent(rows, kind);
    return mistake == TIGHT_COLUMNS ? column.size : next_multiple(column.size, column.align);
}

static uint64_t element_stride(struct extent e)
{
    if (mistake == STRIDE_IS_SIZE) return e.size;
    return next_multiple(e.size, mistake == STRIDE_OF_16 ? 16 : e.align);
}

static struct extent extent_of(const uint8_t **t);
static uint64_t member_place(uint64_t at, struct extent e) { return mistake == NEXT_BYTE ? at : next_multiple(at, e.align); }
static struct extent struct_extent(const uint8_t **t)
{
    size_t members = u16(*t + 4);
    struct extent s = {0, 1}, e;
    *t += 6;
    for (size_t i = 0; i < members; i++) {
        e = extent_of(t);
        s.size = member_place(s.size, e) + e.size;
        if (mistake == LAST_ALIGNS || (mistake == FIRST_ALIGNS ? i == 0 : e.align > s.align)) s.align = e.align;
    }
    if (mistake != STRUCT_NOT_ROUNDED) s.size = next_multiple(s.size, s.align);
    return s;
}

static struct extent extent_of(const uint8_t **t)
{
    const uint8_t *r = *t;
    struct extent e;
    switch (r[1]) {
    case 's': *t += 3; return (struct extent){bytes_of_kind(r[2]), bytes_of_kind(r[2])};
    case 'v': *t += 6; return vector_extent(r[2], r[5]);
    case 'm': *t += 7; return (struct extent){r[2] * column_stride(r[3], r[6]), vector_extent(r[3], r[6]).align};
    case 'a': *t += 4, e = extent_of(t); return (struct extent){u16(r + 2) * element_stride(e), e.align};
    default: return struct_extent(t);
    }
}

/* ---- between record and memory ---- */

/* the bits of a scalar, as they are moved */
static uint64_t moved_bits(uint8_t kind, uint64_t bits)
{
    uint64_t infinity = kind == 5 ? 0x7f800000 : 0x7c00, sign = kind == 5 ? 0x80000000 : 0x8000;
    if (kind < 5) return bits;
    if (mistake == QUIET_NAN && (bits & ~sign) > infinity) return bits | (kind == 5 ? 0x400000 : 0x200);
    return mistake == PLUS_ZERO && bits == sign ? 0 : bits;
}

/* One scalar between its record and memory, or its bytes in memory marked as no padding. */
enum way { WRITING, READING, MARKING };
static void move_scalar(enum way way, uint8_t kind, uint8_t *record, uint8_t *memory)
{
    uint64_t bits = 0, n = bytes_of_kind(kind);
    if (way == MARKING) { memset(memory, 1, n); return; }
    for (uint64_t i = 0; i < n; i++) bits |= (uint64_t)(way == WRITING ? record[3 + i] : memory[i])
        << 8 * (mistake == HIGH_BYTE_FIRST ? n - 1 - i : i);
    bits = moved_bits(kind, bits);
    if (way == READING) memcpy(record, (uint8_t[]){'V', 's', kind}, 3), memset(record + 3, 0, 8);
    for (uint64_t i = 0; i < n; i++) (way == WRITING ? memory : record + 3)[i] = (uint8_t)(bits >> 8 * i);
}

/* scalars one after another, the places in memory so far apart */
static size_t move_scalars(enum way way, uint8_t n, uint8_t kind, uint8_t *record, uint8_t *memory, uint64_t apart)
{
    if (way == READING) memcpy(record, (uint8_t[]){'V', 'v', n}, 3);
    for (uint8_t i = 0; i < n; i++) move_scalar(way, kind, record + 3 + 11 * i, memory + i * apart);
    return 3 + 11u * n;
}

static size_t move_matrix(enum way way, const uint8_t *t, uint8_t *record, uint8_t *memory)
{
    uint8_t columns = t[2], rows = t[3], kind = t[6];
    uint64_t scalar = bytes_of_kind(kind), stride = column_stride(rows, kind);
    size_t at = 4;
    for (uint8_t i = 0; i < columns; i++)
        if (mistake == ROWS_FIRST && columns == rows) at += move_scalars(way, rows, kind, record + at, memory + i * scalar, stride);
        else at += move_scalars(way, rows, kind, record + at, memory + i * stride, scalar);
    return at;
}

/* the value of the type at *t, which is moved past it; gives the length of the value's record */
static size_t move_value(enum way way, const uint8_t **t, uint8_t *record, uint8_t *memory)
{
    const uint8_t *r = *t, *element = r + 4;
    size_t at = r[1] == 'u' ? 6 : 4;
    uint64_t place = 0;
    if (r[1] == 's') { *t += 3, move_scalar(way, r[2], record, memory); return 11; }
    if (r[1] == 'v') { *t += 6; return move_scalars(way, r[2], r[5], record, memory, bytes_of_kind(r[5])); }
    if (way == READING) memcpy(record, r, at), record[0] = 'V';
    if (way == READING && r[1] == 'u' && mistake == NO_IDENTITY) record[2] = record[3] = 0;
    if (r[1] == 'm') { *t += 7; return move_matrix(way, r, record, memory); }
    *t += at;
    if (r[1] == 'a') {
        struct extent e = extent_of(&element);
        for (size_t i = 0; i < u16(r + 2); i++) *t = r + 4, at += move_value(way, t, record + at, memory + i * element_stride(e));
        return at;
    }
    for (size_t i = 0; i < u16(r + 4); i++) {
        const uint8_t *member = *t;
        struct extent e = extent_of(&member);
        place = member_place(place, e);
        at += move_value(way, t, record + at, memory + place), place += e.size;
    }
    return at;
}

/* ---- the entries ---- */

/* the type of the call: the target's, or that of the one well-formed value */
static const uint8_t *type_asked(struct lent_call c)
{
    static uint8_t type[TYPE_ROOM];
    size_t n;
    if (c.entry != WRITE) return c.target;
    value_front(c.given, c.given_n, DEPTH_MOST, type, &n);
    return type;
}

/* the well-formed call, by the second writer and reader */
static struct told moved(struct lent_call c)
{
    const uint8_t *type = type_asked(c), *t = type, *u = type, *v = type;
    struct extent e = extent_of(&t);
    if (c.entry == OF) return (struct told){{0, e.size, 0, 0}, e.align};
    if (c.entry == WRITE) {
        if (e.size > c.room) return refused(22);
        memset(c.out, 0, e.size), move_value(WRITING, &u, c.given, c.out);
        return (struct told){{0, e.size, 0, 0}, 0};
    }
    if (c.given_n != e.size) return refused(26);
    wide length = value_length(&v);
    if (length > c.room) return refused(22);
    move_value(READING, &u, c.out, c.given);
    return (struct told){{0, (uint64_t)length, 0, 0}, 0};
}

/* the buffer as it was before the call */
static uint8_t buffer_before[MOST];
static void keep_buffer(struct lent_call c) { memcpy(buffer_before, c.out, c.room); }
static void buffer_back(struct lent_call c) { memcpy(c.out, buffer_before, c.room); }

/* what is refused for its bytes or its kinds is refused as ever; all else by the mistaken rule, save that sizes past 64 bits are seen */
static struct told by_mistake(struct lent_call c)
{
    keep_buffer(c);
    struct told r = right(c);
    uint64_t n = r.answer.refusal;
    if (n == 1 || n == 2 || n == 25) return r;
    if (mistake != SIZES_WRAP && c.entry != WRITE && vireo_layout_of(c.target, c.target_n).refusal == 22) return r;
    buffer_back(c);
    return moved(c);
}
