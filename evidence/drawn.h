/* Types for the layout entries, drawn from a seed: such as have a layout, the same with a kind somewhere inside that
 * has none, and types of about 2^64 bytes. */

static uint8_t laid_kind(void) { return (uint8_t)(3 + below(4)); }

/* a scalar, vector or matrix of that depth, of one of those kinds */
static size_t laid_leaf(uint8_t *to, int depth)
{
    uint8_t n = (uint8_t)(2 + below(3)), rows = (uint8_t)(2 + below(3));
    if (depth == 0) memcpy(to, (uint8_t[]){'T', 's', laid_kind()}, 3);
    else if (depth == 1) memcpy(to, (uint8_t[]){'T', 'v', n, 'T', 's', laid_kind()}, 6);
    else memcpy(to, (uint8_t[]){'T', 'm', n, rows, 'T', 's', (uint8_t)(5 + below(2))}, 7);
    return depth == 0 ? 3 : depth == 1 ? 6 : 7;
}

static size_t array_head(uint8_t *to, size_t count) { memcpy(to, "Ta", 2); return 2 + put_u16(to + 2, count); }
static size_t struct_head(uint8_t *to, size_t members)
{
    memcpy(to, "Tu", 2); return 2 + put_u16(to + 2, below(65536)) + put_u16(to + 4, members);
}

/* A type of that depth at most, in a record of at most that many bytes (at least 3), with about that many scalars. */
static size_t laid_type(uint8_t *to, int depth, size_t bytes, size_t parts);

/* a struct of so many members: most of them scalars where there are many, so that each has its 3 bytes */
static size_t laid_struct(uint8_t *to, size_t members, int depth, size_t bytes, size_t parts)
{
    size_t at = struct_head(to, members), most = parts / members + 1;
    for (size_t left = members; left; left--) {
        size_t spare = bytes - at - 3 * (left - 1);
        at += laid_type(to + at, depth - 1, members > 16 && !one_in(4) ? 3 : spare, most);
    }
    return at;
}

static size_t laid_type(uint8_t *to, int depth, size_t bytes, size_t parts)
{
    uint64_t pick = below(10);
    if (pick < 2 && depth >= 1 && bytes >= 7) {
        size_t count = 1 + below(parts < 65535 ? parts : 65535), head = array_head(to, count);
        return head + laid_type(to + head, depth - 1, bytes - head, parts / count);
    }
    if (pick < 5 && depth >= 1 && bytes >= 9) {
        size_t most = (bytes - 6) / 3 < parts ? (bytes - 6) / 3 : parts;
        return laid_struct(to, 1 + below(most < 8 ? most : 8), depth, bytes, parts);
    }
    int leaf = bytes < 6 || depth < 1 || parts < 2 ? 0 : bytes < 7 || depth < 2 || parts < 8 ? (int)below(2) : (int)below(3);
    return laid_leaf(to, leaf);
}

/* a type of just that depth: arrays and structs in one another, with small types beside */
static size_t laid_nest(uint8_t *to, int depth, size_t parts)
{
    if (depth == 0 || (depth <= 2 && one_in(2))) return laid_leaf(to, depth);
    if (one_in(2)) {
        size_t count = one_in(2) ? 1 : 1 + below(parts < 6 ? parts : 6), head = array_head(to, count);
        return head + laid_nest(to + head, depth - 1, parts / count);
    }
    size_t members = 1 + below(4), nested = below(members), at = struct_head(to, members);
    for (size_t i = 0; i < members; i++) at += i == nested ? laid_nest(to + at, depth - 1, parts / 2)
        : laid_type(to + at, depth < 4 ? depth - 1 : 2, 32, 6);
    return at;
}

static size_t some_laid_type(uint8_t *to)
{
    uint64_t pick = below(128);
    if (pick < 16) return laid_leaf(to, (int)below(3));
    if (pick < 40) return laid_nest(to, (int)below(16), 64);
    if (pick < 42) return laid_nest(to, 15, 64);
    if (pick == 42) return laid_struct(to, one_in(2) ? 1023 : 1 + below(1023), 2 + (int)below(3), TYPE_MOST, 1500);
    if (pick == 43) return laid_type(to, 2, 64, one_in(16) ? 16000 : 2000);
    return laid_type(to, 1 + (int)below(5), 400, 4 + below(60));
}

/* ---- kinds without a layout ---- */

/* the places of the kinds in a type's record, each with whether a matrix has it */
static size_t kind_places(const uint8_t *t, size_t n, size_t *places, uint8_t *in_matrix)
{
    size_t found = 0, at = 0;
    int matrix = 0;
    while (at < n) {
        uint8_t shape = t[at + 1];
        if (shape == 's') places[found] = at + 2, in_matrix[found++] = (uint8_t)matrix;
        matrix = shape == 'm';
        at += shape == 's' || shape == 'v' ? 3 : shape == 'u' ? 6 : 4;
    }
    return found;
}

/* Bool or an abstract kind in the place of one kind or, now and then, of more */
static void take_layout(uint8_t *t, size_t n)
{
    static size_t places[TYPE_MOST];
    static uint8_t in_matrix[TYPE_MOST];
    size_t found = kind_places(t, n, places, in_matrix);
    do {
        size_t pick = one_in(4) ? 0 : one_in(3) ? found - 1 : below(found);
        t[places[pick]] = in_matrix[pick] ? 2 : (uint8_t)below(3);
    } while (one_in(4));
}

/* ---- sizes about 2^64 ---- */

/* A type of just that size, which is a multiple of the scalar's: a struct of arrays, one for each digit of the
 * number of scalars to the base 32,768. */
static size_t type_of_size(uint8_t *to, wide size, uint8_t kind)
{
    enum { BASE = 32768 };
    wide number = size / (kind == 6 ? 2 : 4);
    size_t members = 0, at = struct_head(to, 0);
    for (int place = 0; number; place++, number /= BASE) {
        if (!(number % BASE)) continue;
        at += array_head(to + at, (size_t)(number % BASE)), members++;
        for (int i = 0; i < place; i++) at += array_head(to + at, BASE);
        memcpy(to + at, (uint8_t[]){'T', 's', kind}, 3), at += 3;
    }
    put_u16(to + 4, members);
    return at;
}

/* one around it: an array of a few; or a struct where a more aligned member stands behind it, or before it, so that
 * rounding up may pass 2^64 */
static size_t around_size(uint8_t *to, wide size, uint8_t kind)
{
    size_t at;
    uint64_t pick = below(4), count = (uint64_t)1 << below(4);
    if (pick == 0) return type_of_size(to, size, kind);
    if (pick == 1) at = array_head(to, count), size = size / count / 4 * 4;
    else at = struct_head(to, 2);
    if (pick == 3) at += laid_leaf(to + at, 1);
    at += type_of_size(to + at, size, kind);
    if (pick == 2) at += laid_leaf(to + at, (int)below(3));
    return at;
}

/* arrays of one count, a power of two or 65,535, in one another: sizes of a multiple of 2^64 among them */
static size_t nested_arrays(uint8_t *to)
{
    size_t at = 0, count = one_in(3) ? 65535 : (size_t)1 << (13 + below(3));
    int depth = 3 + (int)below(11), leaf = (int)below(3);
    for (; depth > leaf; depth--) at += array_head(to + at, count);
    return at + laid_leaf(to + at, leaf);
}

static size_t vast_type(uint8_t *to)
{
    uint8_t kind = one_in(2) ? 5 : 6;
    wide scalar = kind == 6 ? 2 : 4, about = TOP * (one_in(4) ? 1 + below(3) : 1);
    if (one_in(3)) return nested_arrays(to);
    if (one_in(6)) about = one_in(2) ? TOP / 2 : (wide)1 << 32;
    return around_size(to, about + scalar * below(24) - scalar * below(24), kind);
}
