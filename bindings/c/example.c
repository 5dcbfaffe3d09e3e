/* A small route in one call: bore, chainage, valve offsets, and an array that is a valve short, which
 * is refused and does not stop the others. Then the three are made a struct, the struct is laid as
 * a storage buffer has it, and read back from there. All of it is printed in words.
 *
 * bindings/library vireodesk
 * gcc -I bindings/c -o target/example bindings/c/example.c target/staticlib/libvireodesk.a
 * target/example */
#include "vireodesk_text.h"

/* The targets and arguments of all jobs, one after another. */
static uint8_t bytes[512];
static struct vireo_records records;

static struct vireo_part metres(const double *numbers, size_t count)
{
    const size_t start = records.len;
    for (size_t i = 0; i < count; i++) vireo_put_abstract_float(&records, numbers[i]);
    return vireo_part_since(&records, start);
}

static struct vireo_part f32_type(void)
{
    const size_t start = records.len;
    vireo_put_scalar_type(&records, VIREO_F32);
    return vireo_part_since(&records, start);
}

static struct vireo_part vec3_type(void)
{
    const size_t start = records.len;
    vireo_put_vector_type(&records, 3, VIREO_F32);
    return vireo_part_since(&records, start);
}

static struct vireo_part array3_type(void)
{
    const size_t start = records.len;
    vireo_put_array_type(&records, 3);
    f32_type();
    return vireo_part_since(&records, start);
}

/* struct Route { bore: f32, chainage: vec3<f32>, valves: array<f32, 3> } */
static struct vireo_part struct_type(void)
{
    const size_t start = records.len;
    vireo_put_struct_type(&records, 1, 3);
    f32_type();
    vec3_type();
    array3_type();
    return vireo_part_since(&records, start);
}

/* the value or the refusal, whichever the answer is */
static void show(const char *name, struct vireo_answer answer, const uint8_t *record)
{
    printf("%s: ", name);
    if (answer.refusal) vireo_print_refusal(stdout, answer);
    else vireo_print_values(stdout, record, answer.value);
    puts("");
}

/* The struct of the members, whose records lie one after another, in memory and back. */
static void storage(struct vireo_part type_part, const uint8_t *members, size_t members_len)
{
    const uint8_t *type = bytes + type_part.start;
    const size_t type_len = type_part.len;
    uint8_t record[128], memory[64], back[128];
    const struct vireo_layout layout = vireo_layout_of(type, type_len);
    const struct vireo_answer made =
        vireo_call_ctor(VIREO_CONST, type, type_len, members, members_len, record, sizeof record);
    show("struct", made, record);
    if (made.refusal) return;
    const struct vireo_answer laid = vireo_write_layout(record, made.value, memory, sizeof memory);
    printf("storage buffer: %" PRIu64 " bytes, at a multiple of %" PRIu64 "\n",
           layout.size, layout.align);
    vireo_print_hex(stdout, memory, laid.value);
    const struct vireo_answer read =
        vireo_read_layout(type, type_len, memory, laid.value, back, sizeof back);
    const int same = !read.refusal && read.value == made.value && !memcmp(back, record, made.value);
    printf("\nread back: %s\n", same ? "the same" : "another");
}

int main(void)
{
    static const char *const names[] = {"bore", "chainage", "two valves of three", "valves"};
    const double bore[] = {0.508}, chainage[] = {0, 6204.75, 12410};
    const double valves[] = {1180.5, 4400.25, 9031};
    enum { JOBS = sizeof names / sizeof *names };
    uint8_t out[128];

    records = vireo_records_in(bytes, sizeof bytes);
    struct vireo_job jobs[JOBS] = {
        {.target = f32_type(), .args = metres(bore, 1), .stage = VIREO_CONST},
        {.target = vec3_type(), .args = metres(chainage, 3), .stage = VIREO_CONST},
        {.target = array3_type(), .args = metres(valves, 2), .stage = VIREO_CONST},
        {.target = array3_type(), .args = metres(valves, 3), .stage = VIREO_CONST},
    };
    const struct vireo_part all = struct_type();
    if (records.full) {
        fputs("the buffer is too short for these records\n", stderr);
        return 1;
    }

    const struct vireo_answer whole =
        vireo_call_batch(bytes, records.len, jobs, JOBS, out, sizeof out);
    if (whole.refusal) { /* then the list holds no answers */
        show("route", whole, out);
        return 1;
    }
    for (int i = 0; i < JOBS; i++) show(names[i], jobs[i].answer, out + jobs[i].at);
    storage(all, out, whole.value);
    return 0;
}
