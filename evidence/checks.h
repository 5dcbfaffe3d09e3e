/* What the runs over drawn calls share of their checks: how often each was made and what it found, and the faults
 * that are planted to see that it notices. Before this stands the program's own `enum check`, up to CHECKS. */

/* what each check says: the program's */
struct said { const char *name, *what; };
static const struct said checks[CHECKS];

static uint64_t held[CHECKS], faults[CHECKS], shown;

/* a line for each check; gives the faults of all */
static uint64_t print_checks(void)
{
    uint64_t all = 0;
    for (int i = 0; i < CHECKS; i++) {
        printf("  %-8s %10" PRIu64 " times, %" PRIu64 " faults: %s\n", checks[i].name, held[i], faults[i], checks[i].what);
        all += faults[i];
    }
    return all;
}

/* A planted fault, and the check that is there for it. `plant` puts the next one in the place of the last, and `run`
 * makes the calls with it; gives whether one was not noticed. */
struct fault { const char *name; enum check check; };
static int run_planted(int count, struct fault (*plant)(int), void (*run)(uint64_t, uint64_t), uint64_t calls,
    uint64_t seed, const char *what)
{
    int noticed = 0;
    for (int i = 0; i < count; i++) {
        memset(faults, 0, sizeof faults), shown = 10;
        struct fault f = plant(i);
        run(calls, seed);
        if (faults[f.check]) noticed++;
        else printf("not noticed by '%s': %s\n", checks[f.check].name, f.name);
    }
    printf("%d faults planted, %d noticed by the check that is there for it, in %" PRIu64 " %s each\n", count, noticed, calls, what);
    return noticed != count;
}
