/* The inline functions of bindings/c. NULL with length 0 is nothing, to every entry; each helper appends its record, whole
 * where there is room for it, with nothing written past the room; and what prints takes any bytes, which the compiler's
 * checks see to where it has them. Prints what is wrong; exits with 0 where nothing is. */
#include "vireodesk_text.h"

static int wrong;
static void expect(int holds, const char *what)
{
    if (!holds) printf("helpers: %s\n", what), wrong = 1;
}

static void nothing(void)
{
    static const uint8_t f32[] = "Ts\5";
    uint8_t out[16] = {0};
    struct vireo_job job = {{0, 0}, {0, 0}, VIREO_CONST, {9, 9, 9, 9}, 9};
    struct vireo_answer a = vireo_call_ctor(VIREO_CONST, f32, 3, NULL, 0, out, sizeof out);
    expect(!a.refusal && a.value == 11 && !memcmp(out, "Vs\5\0\0\0\0\0\0\0", 11), "call_ctor without arguments gives the zero value");
    expect(vireo_call_ctor(VIREO_CONST, f32, 3, NULL, 0, NULL, 0).refusal == VIREO_REFUSAL_NO_ROOM, "call_ctor without a buffer is 22");
    expect(vireo_call_ctor(VIREO_CONST, NULL, 0, NULL, 0, NULL, 0).refusal == VIREO_REFUSAL_BAD_TARGET, "call_ctor without anything is 1");
    expect(vireo_type_ctor(f32, 3, NULL, 0, out, sizeof out).value == 3, "type_ctor without arguments names the target");
    expect(vireo_type_ctor(NULL, 0, NULL, 0, NULL, 0).refusal == VIREO_REFUSAL_BAD_TARGET, "type_ctor without anything is 1");
    expect(vireo_convert_to(f32, 3, NULL, 0, NULL, 0).refusal == VIREO_REFUSAL_BAD_ARGUMENT, "convert_to of nothing is 2");
    expect(vireo_conversion_rank(f32, 3, NULL, 0).refusal == VIREO_REFUSAL_BAD_ARGUMENT, "conversion_rank of nothing is 2");
    a = vireo_call_batch(NULL, 0, NULL, 0, NULL, 0);
    expect(!a.refusal && !a.value, "call_batch of nothing is accepted");
    a = vireo_call_batch(NULL, 0, &job, 1, NULL, 0);
    expect(!a.refusal && job.answer.refusal == VIREO_REFUSAL_BAD_TARGET, "a job without bytes is 1");
    expect(vireo_write_layout(NULL, 0, NULL, 0).refusal == VIREO_REFUSAL_BAD_ARGUMENT, "write_layout of nothing is 2");
    expect(vireo_read_layout(f32, 3, NULL, 0, NULL, 0).refusal == VIREO_REFUSAL_MEMORY_SIZE, "read_layout of no memory is 26");
    expect(vireo_layout_of(NULL, 0).refusal == VIREO_REFUSAL_BAD_TARGET, "layout_of nothing is 1");
}

/* every helper once, in this order */
static void put_all(struct vireo_records *r)
{
    vireo_put_scalar_type(r, VIREO_F16);
    vireo_put_vector_type(r, 3, VIREO_F32);
    vireo_put_matrix_type(r, 2, 4, VIREO_F32);
    vireo_put_array_type(r, 0x1234);
    vireo_put_struct_type(r, 0xABCD, 0x0302);
    vireo_put_runtime_array(r);
    vireo_put_untemplated_array(r);
    vireo_put_untemplated_vector(r, 2);
    vireo_put_untemplated_matrix(r, 3, 2);
    vireo_put_bool(r, 7);
    vireo_put_abstract_int(r, -2);
    vireo_put_abstract_float(r, 0.5);
    vireo_put_i32(r, -2);
    vireo_put_u32(r, 0xFFFFFFFE);
    vireo_put_f32(r, -0.0f);
    vireo_put_f16(r, 0x3C01);
    vireo_put_vector(r, 4);
    vireo_put_matrix(r, 4, 2);
    vireo_put_array(r, 0xFFFF);
    vireo_put_struct(r, 1, 1023);
    vireo_put_bytes(r, "", 0);
}

static const char due[] =
    "Ts\6" "Tv\3Ts\5" "Tm\2\4Ts\5" "Ta\x34\x12" "Tu\xCD\xAB\2\3" "Tr" "Qa" "Qv\2" "Qm\3\2"
    "Vs\0\1\0\0\0\0\0\0\0" "Vs\1\xFE\xFF\xFF\xFF\xFF\xFF\xFF\xFF" "Vs\2\0\0\0\0\0\0\xE0\x3F" "Vs\3\xFE\xFF\xFF\xFF\0\0\0\0"
    "Vs\4\xFE\xFF\xFF\xFF\0\0\0\0" "Vs\5\0\0\0\x80\0\0\0\0" "Vs\6\1\x3C\0\0\0\0\0\0" "Vv\4" "Vm\4\2" "Va\xFF\xFF" "Vu\1\0\xFF\3";

static void appended(void)
{
    enum { ALL = sizeof due - 1, GUARD = 0xA5 };
    uint8_t bytes[ALL + 8];
    for (size_t room = 0; room <= ALL + 4; room++) {
        memset(bytes, GUARD, sizeof bytes);
        struct vireo_records r = vireo_records_in(bytes, room);
        put_all(&r);
        expect(r.full == (room < ALL) && r.len <= room && (r.full || r.len == ALL), "full exactly where the room is too short");
        expect(!memcmp(bytes, due, r.len), "what is appended is the records");
        for (size_t i = r.len; i < sizeof bytes; i++) expect(bytes[i] == GUARD, "nothing is written past what is appended");
        const struct vireo_part part = vireo_part_since(&r, r.len / 2);
        expect(part.start == r.len / 2 && part.start + part.len == r.len, "a part is what was appended since");
        r.room = sizeof bytes;
        const size_t before = r.len;
        vireo_put_bool(&r, 1);
        expect(room >= ALL || r.len == before, "nothing is appended once something was left out");
    }
}

static uint32_t draw(void)
{
    static uint64_t state = 1;
    state = state * 6364136223846793005u + 1442695040888963407u;
    return (uint32_t)(state >> 33);
}

/* marks, small numbers and any bytes, in a block of just their length */
static uint8_t *drawn(size_t len)
{
    static const char marks[][3] = {"Vs", "Vv", "Vm", "Va", "Vu", "Ts", "Tv", "Tm", "Ta", "Tu", "Tr", "Qa", "Qv", "Qm"};
    uint8_t *bytes = malloc(len ? len : 1);
    if (!bytes) exit(2);
    for (size_t at = 0; at < len;) {
        const uint32_t what = draw() % 6;
        if (what < 3 && at + 2 <= len) memcpy(bytes + at, marks[draw() % 14], 2), at += 2;
        else bytes[at++] = (uint8_t)(what == 3 ? draw() : draw() % 8);
    }
    return bytes;
}

static void printed(void)
{
    FILE *nowhere = fopen("/dev/null", "w");
    if (!nowhere) exit(2);
    for (int i = 0; i < 200000; i++) {
        const size_t len = draw() % 60, half = draw() % (len + 1);
        uint8_t *bytes = drawn(len);
        vireo_print_values(nowhere, bytes, len);
        vireo_print_call(nowhere, bytes, half, bytes + half, len - half);
        free(bytes);
    }
    /* nests that are far too deep */
    enum { DEPTH = 100000 };
    uint8_t *deep = malloc(4 * DEPTH);
    if (!deep) exit(2);
    for (int i = 0; i < DEPTH; i++) memcpy(deep + 4 * i, "Va\xFF\xFF", 4);
    vireo_print_values(nowhere, deep, 4 * DEPTH);
    for (int i = 0; i < DEPTH; i++) memcpy(deep + 4 * i, "Ta\1\0", 4);
    vireo_print_target(nowhere, deep, 4 * DEPTH);
    free(deep);
    fclose(nowhere);
}

int main(void)
{
    nothing();
    appended();
    printed();
    return wrong;
}
