/* Vireodesk: WGSL constructor evaluation on byte records.
 *
 * Link libvireodesk.a: `bindings/library vireodesk` makes it in target/staticlib, and vireodesk.pc
 * tells pkg-config where it is. vireodesk_text.h, beside this file, prints records and refusals.
 *
 * What is promised of every entry, for every input, and proved (docs/TRUST.md):
 *
 * - Nothing is asked of the bytes. Target, arguments and memory may be anything, of any length;
 *   a malformed target is refusal 1, malformed arguments are 2.
 * - The answer is one whole record (or a rank, or the bytes of a value in memory, or a size and an
 *   alignment), or one numbered refusal; a batch has one for each job. Which one, the definitions
 *   say: Entries.antt, Batch.antt and Layout.antt of crates/meaning/specs, by documents 01 and 02.
 * - A refusal leaves the lent buffer as it was. What is accepted fills the front of it, `value`
 *   bytes, and every byte past that is as it was.
 * - The call always ends, reads only the slices it is given, writes only the lent buffer (a batch
 *   also the answers in its list), keeps nothing, and allocates nothing.
 *
 * What the caller owes is C's: each pointer is to as many bytes, or jobs, as its length says, and
 * what is written, the lent buffer and a batch's list, overlaps nothing else that is given. NULL with
 * length 0 means nothing.
 */
#ifndef VIREODESK_H
#define VIREODESK_H

#include <stddef.h>
#include <stdint.h>
#include <string.h>

#ifdef __cplusplus
extern "C" {
#endif

#define VIREO_VERSION "0.1.0"
#define VIREO_VERSION_MAJOR 0
#define VIREO_VERSION_MINOR 1
#define VIREO_VERSION_PATCH 0

/* The scalar kinds, by their numbers in a record. */
enum vireo_kind {
    VIREO_BOOL = 0,
    VIREO_ABSTRACT_INT = 1,   /* a whole number without a type yet: 64 bits */
    VIREO_ABSTRACT_FLOAT = 2, /* a float without a type yet: a double */
    VIREO_I32 = 3,
    VIREO_U32 = 4,
    VIREO_F32 = 5,
    VIREO_F16 = 6
};

/* The stages: in a constant expression, when the pipeline is made, while the shader runs.
 *
 * At Const and at Override f32 refuses an AbstractFloat, and f16 a number of any other kind, that
 * is outside its range or NaN (21), and the same call gives one result at both: the same answer and
 * the same bytes. At Exec they take it, and may give an infinity or NaN. A literal that is converted
 * without them must fit at every stage (9 or 10). */
enum vireo_stage {
    VIREO_CONST = 0,
    VIREO_OVERRIDE = 1,
    VIREO_EXEC = 2
};

/* Why a call was refused. `vireo_refusal_words` and `vireo_refusal_advice` of vireodesk_text.h say
 * it at length, and what to do. */
enum vireo_refusal {
    VIREO_ACCEPTED = 0,
    VIREO_REFUSAL_BAD_TARGET = 1,
    VIREO_REFUSAL_BAD_ARGUMENT = 2,
    VIREO_REFUSAL_NO_STAGE = 3,           /* a stage over 2 */
    VIREO_REFUSAL_NOT_CONSTRUCTIBLE = 4,
    VIREO_REFUSAL_SEVERAL_FOR_SCALAR = 5, /* a scalar type with two or more arguments */
    VIREO_REFUSAL_NOT_A_SCALAR = 6,       /* a scalar type given something else */
    VIREO_REFUSAL_MISMATCH = 7,           /* another shape or type than the target's */
    VIREO_REFUSAL_COUNT = 8,              /* `wanted` and `given` say which */
    VIREO_REFUSAL_NO_CONVERSION = 9,
    VIREO_REFUSAL_NO_COMMON_TYPE = 10,    /* or a component that doesn't convert to it */
    VIREO_REFUSAL_ARGUMENTS_NEEDED = 11,
    VIREO_REFUSAL_VECTOR_PART = 12,       /* neither scalar nor vector */
    VIREO_REFUSAL_FLOATS_NEEDED = 13,
    VIREO_REFUSAL_COLUMN_LENGTH = 14,
    VIREO_REFUSAL_INTEGER_RANGE = 15,     /* outside i32 or u32 */
    VIREO_REFUSAL_NOT_TYPED = 16,         /* typing alone */
    VIREO_REFUSAL_FLOAT_RANGE = 21,       /* at Const or Override */
    VIREO_REFUSAL_NO_ROOM = 22,           /* the lent buffer is too short */
    VIREO_REFUSAL_TOO_MANY_JOBS = 23,     /* more than VIREO_MOST_JOBS, of a whole batch */
    VIREO_REFUSAL_PART_OUTSIDE = 24,      /* of a whole batch */
    VIREO_REFUSAL_NO_LAYOUT = 25,         /* Bool, an abstract kind, a runtime-sized array */
    VIREO_REFUSAL_MEMORY_SIZE = 26        /* memory of another length than the type's size */
};

/* refusal: 0 where the call was accepted, else the number of the refusal.
 * value: the record's length, the rank, the bytes that a value takes in memory, or for a whole
 *   batch how many bytes were written in all; 0 where the call was refused.
 * wanted, given: the two counts of refusal 8; 0 otherwise. */
struct vireo_answer {
    uint64_t refusal, value, wanted, given;
};

/* ---- The entries */

/* Building: what the target's constructor makes of the arguments, value records one after another,
 * at a stage. The result is a value record.
 * Refusals in this order: 3, 1, 2, then the constructor's own, then 22. */
struct vireo_answer vireo_call_ctor(uint8_t stage, const uint8_t *target, size_t target_len,
                                    const uint8_t *args, size_t args_len,
                                    uint8_t *out, size_t out_len);

/* Typing: the type of what the target's constructor makes, from the types of its arguments, type
 * records one after another. The result is a type record, of at most 4,096 bytes.
 * Refusals in this order: 1, 2, then the rules' own, then 22. Its 8 gives the number of arguments.
 * Typing and building agree: crates/third_demand/specs/Entries.antt. */
struct vireo_answer vireo_type_ctor(const uint8_t *target, size_t target_len,
                                    const uint8_t *args, size_t args_len,
                                    uint8_t *out, size_t out_len);

/* Conversion without a constructor: the one value that the arguments are, as the target's type. The
 * result is a value record.
 * Refusals: 1 (also for a shape), 2 (also for another number of values than one), 9, 22. */
struct vireo_answer vireo_convert_to(const uint8_t *target, size_t target_len,
                                     const uint8_t *args, size_t args_len,
                                     uint8_t *out, size_t out_len);

/* The rank of that conversion, 0 to 7, for the one type that the arguments are. Nothing is written.
 * Refusals: 1, 2, 9. */
struct vireo_answer vireo_conversion_rank(const uint8_t *target, size_t target_len,
                                          const uint8_t *args, size_t args_len);

/* A part of a lent slice: where it begins, counted from the slice's first byte, and how long it is. */
struct vireo_part {
    size_t start, len;
};

/* One call of vireo_call_ctor in a batch: its target and its arguments as parts of the lent slice,
 * and its stage. Jobs may share parts, and parts may overlap.
 * answer, at: set by vireo_call_batch; what they held before makes no difference. */
struct vireo_job {
    struct vireo_part target, args;
    uint8_t stage;
    struct vireo_answer answer; /* what vireo_call_ctor answers */
    size_t at;                  /* where its record begins in the lent buffer; for a refused job,
                                   where the next record may begin */
};

enum { VIREO_MOST_JOBS = 256 };

/* Building a whole list of jobs over one slice. The call is accepted, with no jobs too, or refused
 * as a whole: 23 where there are more than 256 jobs, else 24 where the target or the arguments of
 * some job are no part of the slice: start + len, as a whole number that never wraps, is more than
 * bytes_len. So an empty part may begin at the slice's end. A refused call writes nothing: no byte
 * of the buffer, nothing in the list.
 *
 * In an accepted one each job, in order, gets the answer that vireo_call_ctor alone gives on its
 * stage, its two parts, and what is left of the buffer at its turn: out + at, out_len - at. A record
 * moves the place on by its length, so that the records lie one after another from the front; a
 * refused job writes nothing and the next goes on, after a 22 too. Target, arguments and stage in
 * the list are as they were. `value` is how many bytes the records take together. */
struct vireo_answer vireo_call_batch(const uint8_t *bytes, size_t bytes_len,
                                     struct vireo_job *jobs, size_t jobs_len,
                                     uint8_t *out, size_t out_len);

/* WGSL's memory layout, for values that go into a storage buffer or come out of one. In bytes:
 * 32-bit scalars have size and alignment 4, F16 2; a vector has the size of its scalars, and is
 * aligned to two of them where it has 2, to four where it has 3 or 4; a matrix is laid as an array
 * of its columns; an array is aligned as its element, and its stride is the element's size rounded
 * up to that; a struct's members follow one another, each at the next multiple of its alignment, and
 * the struct is aligned as its most aligned member, its size rounded up to that. Members with a size
 * or align attribute aren't handed in. A scalar's low byte comes first; bytes that belong to no
 * scalar are padding.
 *
 * A value written and read by its type is the same value, NaN bits and the sign of zero included;
 * memory read and written is the same but for its padding, which is zero then. */

/* The one value that the arguments are, as it lies in memory, from the buffer's first byte on:
 * `value` is exactly its type's size, and its padding is zero. A buffer of the size that
 * vireo_layout_of tells is long enough.
 * Refusals: 2 (also for another number of values than one), 25, 22. */
struct vireo_answer vireo_write_layout(const uint8_t *args, size_t args_len,
                                       uint8_t *out, size_t out_len);

/* The value of the target's type that lies in memory. The result is a value record; what the padding
 * holds makes no difference.
 * Refusals: 1 (also for a shape), 25 (also for a runtime-sized array), 26 where memory_len isn't the
 * type's size (a size past 64 bits is the length of no slice), 22. */
struct vireo_answer vireo_read_layout(const uint8_t *target, size_t target_len,
                                      const uint8_t *memory, size_t memory_len,
                                      uint8_t *out, size_t out_len);

/* refusal: 0 where the call was accepted, else the number of the refusal.
 * size, align: in bytes; 0 where the call was refused. */
struct vireo_layout {
    uint64_t refusal, size, align;
};

/* Size and alignment of the target's type in memory. Nothing is written.
 * Refusals: 1 (also for a shape), 25 (also for a runtime-sized array), 22 where the size is past 64
 * bits. */
struct vireo_layout vireo_layout_of(const uint8_t *target, size_t target_len);

/* ---- NULL with length 0
 *
 * The library takes no null pointer, not even with length 0. So that a caller may give one, the
 * entries' names stand, from here on, for functions that put another pointer in its place. */

static inline const uint8_t *vireo_some(const uint8_t *bytes, size_t len)
{
    return bytes || len ? bytes : (const uint8_t *)"";
}

static inline uint8_t *vireo_some_lent(uint8_t *out, size_t len)
{
    static uint8_t none;
    return out || len ? out : &none;
}

static inline struct vireo_job *vireo_some_jobs(struct vireo_job *jobs, size_t len)
{
    static struct vireo_job none;
    return jobs || len ? jobs : &none;
}

static inline struct vireo_answer vireo_call_ctor_or_none(uint8_t stage,
                                                          const uint8_t *target, size_t target_len,
                                                          const uint8_t *args, size_t args_len,
                                                          uint8_t *out, size_t out_len)
{
    return vireo_call_ctor(stage, vireo_some(target, target_len), target_len,
                           vireo_some(args, args_len), args_len,
                           vireo_some_lent(out, out_len), out_len);
}

static inline struct vireo_answer vireo_type_ctor_or_none(const uint8_t *target, size_t target_len,
                                                          const uint8_t *args, size_t args_len,
                                                          uint8_t *out, size_t out_len)
{
    return vireo_type_ctor(vireo_some(target, target_len), target_len,
                           vireo_some(args, args_len), args_len,
                           vireo_some_lent(out, out_len), out_len);
}

static inline struct vireo_answer vireo_convert_to_or_none(const uint8_t *target, size_t target_len,
                                                           const uint8_t *args, size_t args_len,
                                                           uint8_t *out, size_t out_len)
{
    return vireo_convert_to(vireo_some(target, target_len), target_len,
                            vireo_some(args, args_len), args_len,
                            vireo_some_lent(out, out_len), out_len);
}

static inline struct vireo_answer vireo_conversion_rank_or_none(const uint8_t *target,
                                                                size_t target_len,
                                                                const uint8_t *args,
                                                                size_t args_len)
{
    return vireo_conversion_rank(vireo_some(target, target_len), target_len,
                                 vireo_some(args, args_len), args_len);
}

static inline struct vireo_answer vireo_call_batch_or_none(const uint8_t *bytes, size_t bytes_len,
                                                           struct vireo_job *jobs, size_t jobs_len,
                                                           uint8_t *out, size_t out_len)
{
    return vireo_call_batch(vireo_some(bytes, bytes_len), bytes_len,
                            vireo_some_jobs(jobs, jobs_len), jobs_len,
                            vireo_some_lent(out, out_len), out_len);
}

static inline struct vireo_answer vireo_write_layout_or_none(const uint8_t *args, size_t args_len,
                                                             uint8_t *out, size_t out_len)
{
    return vireo_write_layout(vireo_some(args, args_len), args_len,
                              vireo_some_lent(out, out_len), out_len);
}

static inline struct vireo_answer vireo_read_layout_or_none(const uint8_t *target,
                                                            size_t target_len,
                                                            const uint8_t *memory,
                                                            size_t memory_len,
                                                            uint8_t *out, size_t out_len)
{
    return vireo_read_layout(vireo_some(target, target_len), target_len,
                             vireo_some(memory, memory_len), memory_len,
                             vireo_some_lent(out, out_len), out_len);
}

static inline struct vireo_layout vireo_layout_of_or_none(const uint8_t *target, size_t target_len)
{
    return vireo_layout_of(vireo_some(target, target_len), target_len);
}

#define vireo_call_ctor vireo_call_ctor_or_none
#define vireo_type_ctor vireo_type_ctor_or_none
#define vireo_convert_to vireo_convert_to_or_none
#define vireo_conversion_rank vireo_conversion_rank_or_none
#define vireo_call_batch vireo_call_batch_or_none
#define vireo_write_layout vireo_write_layout_or_none
#define vireo_read_layout vireo_read_layout_or_none
#define vireo_layout_of vireo_layout_of_or_none

/* ---- Writing records
 *
 * Targets and arguments are appended to bytes that the caller has. What does not fit is left out,
 * and so is all that would come after it; `full` says so. It is enough to look at it once, at the
 * end. The library judges the rest: a kind over 6, or a vector of 5, is refused there.
 *
 *     uint8_t room[64];
 *     struct vireo_records r = vireo_records_in(room, sizeof room);
 *     vireo_put_vector_type(&r, 3, VIREO_F32);
 *     struct vireo_part vec3 = vireo_part_since(&r, 0);
 */
struct vireo_records {
    uint8_t *bytes;
    size_t room, len;
    int full;
};

static inline struct vireo_records vireo_records_in(uint8_t *bytes, size_t room)
{
    struct vireo_records records;
    records.bytes = bytes;
    records.room = room;
    records.len = 0;
    records.full = 0;
    return records;
}

/* what was appended since the records had this length */
static inline struct vireo_part vireo_part_since(const struct vireo_records *records, size_t start)
{
    struct vireo_part part;
    part.start = start;
    part.len = records->len - start;
    return part;
}

/* bytes as they are, such as a record that was made before */
static inline void vireo_put_bytes(struct vireo_records *to, const void *bytes, size_t len)
{
    if (to->full || len > to->room - to->len) {
        to->full = 1;
    } else if (len) {
        memcpy(to->bytes + to->len, bytes, len);
        to->len += len;
    }
}

static inline void vireo_put_mark(struct vireo_records *to, const char *mark)
{
    vireo_put_bytes(to, mark, 2);
}

/* the low bytes of a number, the lowest first */
static inline void vireo_put_number(struct vireo_records *to, uint64_t number, size_t width)
{
    uint8_t bytes[8];
    size_t i;
    for (i = 0; i < sizeof bytes; i++) bytes[i] = (uint8_t)(number >> 8 * i);
    vireo_put_bytes(to, bytes, width);
}

/* Types, and the targets that are no type. */
static inline void vireo_put_scalar_type(struct vireo_records *to, enum vireo_kind kind)
{
    vireo_put_mark(to, "Ts");
    vireo_put_number(to, (uint64_t)kind, 1);
}

static inline void vireo_put_vector_type(struct vireo_records *to, uint8_t n, enum vireo_kind kind)
{
    vireo_put_mark(to, "Tv");
    vireo_put_number(to, n, 1);
    vireo_put_scalar_type(to, kind);
}

static inline void vireo_put_matrix_type(struct vireo_records *to, uint8_t columns, uint8_t rows,
                                         enum vireo_kind kind)
{
    vireo_put_mark(to, "Tm");
    vireo_put_number(to, columns, 1);
    vireo_put_number(to, rows, 1);
    vireo_put_scalar_type(to, kind);
}

/* its element's type is to follow */
static inline void vireo_put_array_type(struct vireo_records *to, uint16_t count)
{
    vireo_put_mark(to, "Ta");
    vireo_put_number(to, count, 2);
}

/* its members' types are to follow */
static inline void vireo_put_struct_type(struct vireo_records *to, uint16_t identity,
                                         uint16_t members)
{
    vireo_put_mark(to, "Tu");
    vireo_put_number(to, identity, 2);
    vireo_put_number(to, members, 2);
}

/* its element's type is to follow */
static inline void vireo_put_runtime_array(struct vireo_records *to) { vireo_put_mark(to, "Tr"); }

static inline void vireo_put_untemplated_array(struct vireo_records *to) { vireo_put_mark(to, "Qa"); }

static inline void vireo_put_untemplated_vector(struct vireo_records *to, uint8_t n)
{
    vireo_put_mark(to, "Qv");
    vireo_put_number(to, n, 1);
}

static inline void vireo_put_untemplated_matrix(struct vireo_records *to, uint8_t columns,
                                                uint8_t rows)
{
    vireo_put_mark(to, "Qm");
    vireo_put_number(to, columns, 1);
    vireo_put_number(to, rows, 1);
}

/* Scalars. */
static inline void vireo_put_literal(struct vireo_records *to, enum vireo_kind kind, uint64_t bits)
{
    vireo_put_mark(to, "Vs");
    vireo_put_number(to, (uint64_t)kind, 1);
    vireo_put_number(to, bits, 8);
}

static inline void vireo_put_bool(struct vireo_records *to, int value)
{
    vireo_put_literal(to, VIREO_BOOL, value != 0);
}

static inline void vireo_put_abstract_int(struct vireo_records *to, int64_t value)
{
    vireo_put_literal(to, VIREO_ABSTRACT_INT, (uint64_t)value);
}

static inline void vireo_put_abstract_float(struct vireo_records *to, double value)
{
    uint64_t bits;
    memcpy(&bits, &value, sizeof bits);
    vireo_put_literal(to, VIREO_ABSTRACT_FLOAT, bits);
}

static inline void vireo_put_i32(struct vireo_records *to, int32_t value)
{
    vireo_put_literal(to, VIREO_I32, (uint32_t)value);
}

static inline void vireo_put_u32(struct vireo_records *to, uint32_t value)
{
    vireo_put_literal(to, VIREO_U32, value);
}

static inline void vireo_put_f32(struct vireo_records *to, float value)
{
    uint32_t bits;
    memcpy(&bits, &value, sizeof bits);
    vireo_put_literal(to, VIREO_F32, bits);
}

/* by its bits, since C99 has no such type */
static inline void vireo_put_f16(struct vireo_records *to, uint16_t bits)
{
    vireo_put_literal(to, VIREO_F16, bits);
}

/* Fronts of composite values; their parts are to follow: n scalars, as many columns (each a vector
 * of as many as there are rows), the elements, the members. */
static inline void vireo_put_vector(struct vireo_records *to, uint8_t n)
{
    vireo_put_mark(to, "Vv");
    vireo_put_number(to, n, 1);
}

static inline void vireo_put_matrix(struct vireo_records *to, uint8_t columns, uint8_t rows)
{
    vireo_put_mark(to, "Vm");
    vireo_put_number(to, columns, 1);
    vireo_put_number(to, rows, 1);
}

static inline void vireo_put_array(struct vireo_records *to, uint16_t count)
{
    vireo_put_mark(to, "Va");
    vireo_put_number(to, count, 2);
}

static inline void vireo_put_struct(struct vireo_records *to, uint16_t identity, uint16_t members)
{
    vireo_put_mark(to, "Vu");
    vireo_put_number(to, identity, 2);
    vireo_put_number(to, members, 2);
}

#ifdef __cplusplus
}
#endif

#endif
