/* What the runs over drawn calls share: regions between pages that may not be touched, bytes that are lent there,
 * signals that come back to the call, the progress of a long run, equal answers. */
#include <setjmp.h>
#include <signal.h>
#include <sys/mman.h>
#include <unistd.h>

enum { REGIONS = 6 };
static struct { uint8_t *low, *high; } lent[REGIONS];

/* so many regions, each of at least that length and between two forbidden pages */
static void make_regions(int count, size_t least)
{
    size_t page = (size_t)sysconf(_SC_PAGESIZE), room = (least + page - 1) / page * page;
    for (int i = 0; i < count; i++) {
        uint8_t *all = mmap(0, room + 2 * page, PROT_NONE, MAP_PRIVATE | MAP_ANONYMOUS, -1, 0);
        if (all == MAP_FAILED || mprotect(all + page, room, PROT_READ | PROT_WRITE)) { perror("mmap"); exit(2); }
        lent[i].low = all + page, lent[i].high = all + page + room;
    }
}

/* n bytes that end at a forbidden page, or begin behind one */
static uint8_t *beside_page(int which, size_t n, int ends) { return ends ? lent[which].high - n : lent[which].low; }

/* what a lent buffer holds before the call, its guard among it: drawn bytes */
static uint8_t before[MOST + GUARD];
static inline void draw_before(void) { for (size_t i = 0; i < sizeof before; i++) before[i] = (uint8_t)draw(); }

/* bytes that are lent for a call, and their guard on the side where no forbidden page is */
struct lain { uint8_t *at; size_t n; int ends; };
static inline uint8_t *guard_at(struct lain l) { return l.ends ? l.at - GUARD : l.at + l.n; }
static inline struct lain lay(int which, const void *bytes, size_t n)
{
    struct lain l = {0, n, one_in(2)};
    l.at = beside_page(which, n, l.ends);
    memcpy(l.at, bytes, n), memcpy(guard_at(l), before + MOST, GUARD);
    return l;
}
static inline int guard_kept(struct lain l) { return !memcmp(guard_at(l), before + MOST, GUARD); }
static inline int kept_as(struct lain l, const void *bytes) { return guard_kept(l) && !memcmp(l.at, bytes, l.n); }

/* a signal inside the library comes back to the call; one outside it ends the program */
static sigjmp_buf back;
static volatile sig_atomic_t inside;
static void caught(int signal_number)
{
    if (inside) siglongjmp(back, 1);
    signal(signal_number, SIG_DFL);
    raise(signal_number);
}

static void catch_signals(void)
{
    static uint8_t stack[1 << 16];
    sigaltstack(&(stack_t){.ss_sp = stack, .ss_size = sizeof stack}, 0);
    struct sigaction action = {.sa_handler = caught, .sa_flags = SA_NODEFER | SA_ONSTACK};
    for (size_t i = 0; i < 6; i++) sigaction((int[]){SIGSEGV, SIGBUS, SIGFPE, SIGILL, SIGTRAP, SIGALRM}[i], &action, 0);
}

/* a line on standard error each second on a terminal, else every ten seconds; the alarm ends a call that does not end */
static void progress(uint64_t done, uint64_t all, const char *what, double start)
{
    static double last;
    double t = now();
    int terminal = isatty(2);
    alarm(60);
    if (!last) last = start;
    if (t - last < (terminal ? 1 : 10)) return;
    last = t;
    fprintf(stderr, terminal ? "\r%" PRIu64 " of %" PRIu64 " %s" : "%" PRIu64 " of %" PRIu64 " %s\n", done, all, what);
}

static void end_progress(void)
{
    alarm(0);
    if (isatty(2)) fprintf(stderr, "\r%60s\r", "");
}

static inline int same(struct vireo_answer x, struct vireo_answer y)
{
    return x.refusal == y.refusal && x.value == y.value && x.wanted == y.wanted && x.given == y.given;
}
