/* Structs as gcc lays them (gcc-structs writes them, drawn-structs.h holds them) against vireo_layout_of, and
 * against where vireo_write_layout puts each scalar.
 *
 *   structs            prints what differs, and how many; exits 1 where there is any
 *   structs --planted  the same with each mistake of mistaken.h in the layout: exits 1 where one is not noticed
 *
 * Where the scalars stand in a value's record is laid.h's to say; where they lie in memory is gcc's.
 */
#include "records.h"
#include "reader.h"
#include "draw.h"
#include "laid.h"
#include "mistaken.h"

/* a struct: the record of its type, what sizeof, _Alignof and offsetof say */
struct by_gcc { const uint8_t *record; size_t record_n; uint64_t size, align; const uint32_t *places; size_t places_n; };
#include "drawn-structs.h"
enum { STRUCTS = sizeof by_gcc / sizeof *by_gcc };

static struct told (*enter)(struct lent_call) = right;
static uint64_t differing, compared;
static int quiet;

static void compare(const struct by_gcc *s, int same, const char *what)
{
    compared++;
    if (same || differing++ >= 10 || quiet) return;
    printf("struct %td: %s: ", s - by_gcc, what);
    for (size_t i = 0; i < s->record_n; i++) printf("%02x", s->record[i]);
    printf("\n");
}

/* a value of the type with drawn scalars, in `args`; gives its length. What laid.h says of the type, by which the
 * drawn calls are judged, is held to gcc too */
static size_t draw_value(const struct by_gcc *s)
{
    const uint8_t *t = s->record;
    grown = scalars_n = 0;
    const struct node *tree = tree_of(&t);
    size_t n = spread(tree, 0, 0), same = 0;
    memcpy(args, blank, n);
    for (size_t i = 0; i < scalars_n; i++)
        for (size_t b = 0; b < scalars[i].size; b++) args[scalars[i].record + b] = (uint8_t)draw();
    while (same < scalars_n && same < s->places_n && scalars[same].memory == s->places[same]) same++;
    compare(s, tree->size == s->size && tree->align == s->align && same == scalars_n && same == s->places_n,
        "laid.h says otherwise than gcc");
    return n;
}

/* the value where gcc has its scalars, in `due.bytes` */
static void lay_by_gcc(const struct by_gcc *s)
{
    memset(due.bytes, 0, s->size);
    for (size_t i = 0; i < s->places_n; i++) memcpy(due.bytes + s->places[i], args + scalars[i].record, scalars[i].size);
}

static int gave(struct told t, const uint8_t *out, const uint8_t *bytes, size_t n)
{
    return !t.answer.refusal && t.answer.value == n && !memcmp(out, bytes, n);
}

static void compare_struct(const struct by_gcc *s)
{
    size_t n = draw_value(s);
    memcpy(target, s->record, s->record_n), lay_by_gcc(s), memset(space, FILL, s->size + 2 * GUARD);
    struct told t = enter((struct lent_call){OF, target, s->record_n, args, 0, space, 0});
    compare(s, !t.answer.refusal && t.answer.value == s->size && t.align == s->align, "its size or alignment is not gcc's");
    t = enter((struct lent_call){WRITE, target, 0, args, n, space + GUARD, s->size});
    compare(s, gave(t, space + GUARD, due.bytes, s->size) && untouched(s->size, s->size), "a scalar is not where gcc has it");
    t = enter((struct lent_call){READ, target, s->record_n, due.bytes, s->size, space, n});
    compare(s, gave(t, space, args, n), "a scalar is not read from where gcc has it");
}

static void run(void)
{
    state = 1, compared = differing = 0;
    for (size_t i = 0; i < STRUCTS; i++) compare_struct(&by_gcc[i]);
}

/* the mistakes in the layout itself */
static int run_planted(void)
{
    int noticed = 0, planted = 0;
    quiet = 1, enter = by_mistake;
    for (int m = VEC3_TO_THREE; m <= HIGH_BYTE_FIRST; m++, planted++) {
        mistake = (enum mistake)m;
        run();
        if (differing) noticed++;
        else printf("mistake %d was not noticed\n", m);
    }
    printf("%d mistakes in the layout, %d noticed by gcc's structs\n", planted, noticed);
    return noticed != planted;
}

int main(int argc, char **argv)
{
    if (argc > 1 && !strcmp(argv[1], "--planted")) return run_planted();
    uint64_t all = 0;
    run();
    for (size_t i = 0; i < STRUCTS; i++) all += by_gcc[i].places_n;
    printf("%d structs of gcc with %" PRIu64 " scalars, %" PRIu64 " comparisons, %" PRIu64 " differ\n", STRUCTS, all, compared, differing);
    return differing != 0;
}
