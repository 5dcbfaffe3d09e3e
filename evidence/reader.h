/* A reader of records, from the words of document 01 alone: what is well formed, the type of a value, and how long a
 * value of a type is. Nothing is assumed of the bytes it reads. It shares nothing with the library, so that one can
 * be held to the other. */

/* the limits of document 01 */
enum { DEPTH_MOST = 15, TYPE_MOST = 4096, RUNTIME_MOST = 4094, QA_DEPTH_MOST = 14, QA_TYPE_MOST = 4092,
    MEMBERS_MOST = 1023, ARGS_MOST = 65535 };

static inline int side(uint8_t n) { return n >= 2 && n <= 4; }
static inline int float_kind(uint8_t kind) { return kind == 2 || kind == 5 || kind == 6; }
static inline int scalar_at(const uint8_t *t) { return t[0] == 'T' && t[1] == 's' && t[2] <= 6; }

/* the length of the type record at the front of n bytes, of that depth at most; 0 where none stands there. A `Tr` is
 * none: it stands only outermost in a target */
static inline size_t type_front(const uint8_t *t, size_t n, int depth)
{
    if (depth < 0 || n < 3 || t[0] != 'T') return 0;
    if (t[1] == 's') return scalar_at(t) ? 3 : 0;
    if (t[1] == 'v') return depth >= 1 && n >= 6 && side(t[2]) && scalar_at(t + 3) ? 6 : 0;
    if (t[1] == 'm') return depth >= 2 && n >= 7 && side(t[2]) && side(t[3]) && scalar_at(t + 4) && float_kind(t[6]) ? 7 : 0;
    if (t[1] == 'a') {
        if (n < 4 || u16(t + 2) == 0) return 0;
        size_t element = type_front(t + 4, n - 4, depth - 1);
        return element ? 4 + element : 0;
    }
    if (t[1] != 'u' || n < 6 || u16(t + 4) == 0 || u16(t + 4) > MEMBERS_MOST) return 0;
    size_t at = 6;
    for (size_t members = u16(t + 4), member; members; members--, at += member)
        if (!(member = type_front(t + at, n - at, depth - 1))) return 0;
    return at;
}

/* how many payload bytes a kind uses */
static inline int payload_bytes(uint8_t kind) { return kind == 0 ? 1 : kind <= 2 ? 8 : kind <= 5 ? 4 : 2; }

static inline int literal_at(const uint8_t *v)
{
    if (v[0] != 'V' || v[1] != 's' || v[2] > 6 || (v[2] == 0 && v[3] > 1)) return 0;
    for (int i = payload_bytes(v[2]); i < 8; i++)
        if (v[3 + i]) return 0;
    return 1;
}

/* the length of the vector record at the front of n bytes, all of one kind; 0 where none stands there */
static inline size_t vector_front(const uint8_t *v, size_t n)
{
    if (n < 3 || v[0] != 'V' || v[1] != 'v' || !side(v[2]) || n < 3 + 11u * v[2]) return 0;
    for (const uint8_t *part = v + 3; part < v + 3 + 11 * v[2]; part += 11)
        if (!literal_at(part) || part[2] != v[5]) return 0;
    return 3 + 11u * v[2];
}

/* the same of a matrix: columns of one length and one kind of float */
static inline size_t matrix_front(const uint8_t *v, size_t n)
{
    if (n < 4 || !side(v[2]) || !side(v[3])) return 0;
    size_t column = 3 + 11u * v[3];
    if (n < 4 + v[2] * column || !float_kind(v[9])) return 0;
    for (const uint8_t *part = v + 4; part < v + 4 + v[2] * column; part += column)
        if (vector_front(part, column) != column || part[5] != v[9]) return 0;
    return 4 + v[2] * column;
}

/* The length of the value record at the front of n bytes; 0 where none stands there, or its type is deeper or longer
 * than allowed. The type's record is left at `to`, which has room for a type at each level, and its length in *type. */
enum { TYPE_ROOM = (DEPTH_MOST + 3) * TYPE_MOST };
static inline size_t value_front(const uint8_t *v, size_t n, int depth, uint8_t *to, size_t *type)
{
    size_t len, at, parts, first = 0, part;
    if (depth < 0 || n < 3 || v[0] != 'V') return 0;
    switch (v[1]) {
    case 's':
        if (n < 11 || !literal_at(v)) return 0;
        memcpy(to, (uint8_t[]){'T', 's', v[2]}, *type = 3);
        return 11;
    case 'v':
        if (depth < 1 || !(len = vector_front(v, n))) return 0;
        memcpy(to, (uint8_t[]){'T', 'v', v[2], 'T', 's', v[5]}, *type = 6);
        return len;
    case 'm':
        if (depth < 2 || !(len = matrix_front(v, n))) return 0;
        memcpy(to, (uint8_t[]){'T', 'm', v[2], v[3], 'T', 's', v[9]}, *type = 7);
        return len;
    case 'a': at = 4; break;
    case 'u': at = 6; break;
    default: return 0;
    }
    if (n < at || !(parts = u16(v + at - 2)) || (at == 6 && parts > MEMBERS_MOST)) return 0;
    memcpy(to, v, at), to[0] = 'T', *type = at;
    /* a struct's members have each their type; an array's elements all that of the first */
    for (size_t i = 0; i < parts; i++, at += len) {
        if (!(len = value_front(v + at, n - at, depth - 1, to + *type, &part))) return 0;
        if (v[1] == 'u' || i == 0) first = part, *type += part;
        else if (part != first || memcmp(to + *type - first, to + *type, part)) return 0;
        if (*type > TYPE_MOST) return 0;
    }
    return at;
}

/* whether all of the bytes are one target; the conversion entries take no shape */
static inline int target_formed(const uint8_t *t, size_t n, int shapes)
{
    if (n < 2) return 0;
    if (t[0] == 'Q') return shapes
        && ((t[1] == 'a' && n == 2) || (t[1] == 'v' && n == 3 && side(t[2]))
        || (t[1] == 'm' && n == 4 && side(t[2]) && side(t[3])));
    if (t[0] == 'T' && t[1] == 'r') return n > 2 && n <= RUNTIME_MOST && type_front(t + 2, n - 2, DEPTH_MOST - 1) == n - 2;
    return n <= TYPE_MOST && type_front(t, n, DEPTH_MOST) == n;
}

/* arguments: how many, with vectors flattened how many, and how long the first one's type is */
struct arguments { int formed; uint64_t count, flat; size_t first; };

/* arguments of that number at most: values, or types for typing and for the rank */
static inline struct arguments arguments_formed(const uint8_t *a, size_t n, int types, int qa, uint64_t most)
{
    static uint8_t type[TYPE_ROOM];
    struct arguments read = {0, 0, 0, 0};
    for (size_t at = 0, len, of; at < n; at += len, read.count++) {
        int depth = qa ? QA_DEPTH_MOST : DEPTH_MOST;
        len = types ? (of = type_front(a + at, n - at, depth)) : value_front(a + at, n - at, depth, type, &of);
        if (!len || of > (qa ? QA_TYPE_MOST : TYPE_MOST) || read.count == most) return read;
        if (at == 0) read.first = of;
        read.flat += a[at + 1] == 'v' ? a[at + 2] : 1;
    }
    read.formed = 1;
    return read;
}

/* how long a value of the well-formed type at *t is, up to 2^64; *t is moved past the type */
static inline unsigned __int128 value_length(const uint8_t **t)
{
    const unsigned __int128 top = (unsigned __int128)1 << 64;
    const uint8_t *at = *t;
    unsigned __int128 len = 6;
    switch (at[1]) {
    case 's': *t += 3; return 11;
    case 'v': *t += 6; return 3 + 11u * at[2];
    case 'm': *t += 7; return 4 + at[2] * (3 + 11u * at[3]);
    case 'a': *t += 4, len = 4 + u16(at + 2) * value_length(t); break;
    default: *t += 6;
        for (size_t members = u16(at + 4); members; members--) len += value_length(t);
    }
    return len < top ? len : top;
}
