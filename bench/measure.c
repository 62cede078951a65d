/* Measures the variants: measure [ROUNDS [NAME LIBRARY COMMAND]..]. Each round visits every variant, in an order drawn
 * for it, so that whatever else the machine does, and whatever the visit before left in the caches, falls on all of
 * them alike. Prints tables of medians; fails only where a variant answers wrongly. Each NAME is a peer: an allocator
 * in a process of its own, which the COMMAND starts and which makes its visits in the same rounds.
 *
 * measure peer LIBRARY: such a process, whose malloc must come from a file of that name.
 * measure count EDITION [LIBRARY]: runs both traces once, and the statement's asks in rows, over each variant that has
 * this edition, or over the process's own malloc, for callgrind. */
#define _DEFAULT_SOURCE
#include "peers.h"
#include "random.h"
#include "tasks.h"

#include <math.h>
#include <signal.h>
#include <stdio.h>
#include <stdlib.h>
#include <string.h>
#include <sys/mman.h>
#include <sys/wait.h>
#include <unistd.h>

enum { CHILD_ROUNDS = 25, MOST_ROUNDS = 10000 };

/* Of a variant: its median, and the library's time as a multiple of its, over all rounds and over the quietest quarter
 * of them. */
struct figures {
    double median, ratio, quiet;
};

static double (*times)[MOST_ROUNDS];    /* of each variant, shared with the children */
static size_t rounds = 400;
static struct figures figures[TASKS][MOST_VARIANTS];

/* ---- rounds and tables */

/* The variants that say where their blocks stand have them all at the same offsets. An older archive need not: before
 * W-203 no arena moved in the usable list, so that other pools were taken. */
static void same_places(const struct task *t)
{
    for (size_t i = 1; i < variant_count; i++) {
        const struct variant *v = variants[i];
        bool same = t->can(v) && v->place != NULL && !v->older;
        for (size_t slot = 0; same && slot < SLOTS; slot++)
            if (v->place(slot) != variants[0]->place(slot))
                fail(v->name, "its offsets are not the library's");
    }
}

static int by_size(const void *a, const void *b)
{
    double x = *(const double *)a, y = *(const double *)b;
    return (x > y) - (x < y);
}

static double quantile(double *values, size_t n, double share)
{
    qsort(values, n, sizeof *values, by_size);
    return values[(size_t)(share * (double)n)];
}

/* What a round took in this process. A peer's time may come in bursts of its own: it does not say how quiet it was. */
static double round_time(size_t r)
{
    double sum = 0;
    for (size_t v = 0; v < variant_count; v++)
        if (variants[v]->peer == NULL)
            sum += times[v][r];
    return sum;
}

/* What a quarter of the rounds, the quietest ones, take at most. */
static double quiet_time(void)
{
    static double sums[MOST_ROUNDS];
    for (size_t r = 0; r < rounds; r++)
        sums[r] = round_time(r);
    return quantile(sums, rounds, 0.25);
}

/* The library's time as a multiple of the variant's in the same round: the median over the rounds of at most this
 * time. */
static double ratio_to(size_t v, double most)
{
    static double ratios[MOST_ROUNDS];
    size_t n = 0;
    for (size_t r = 0; r < rounds; r++)
        if (round_time(r) <= most)
            ratios[n++] = times[0][r] / times[v][r];
    return quantile(ratios, n, 0.5);
}

static double quantile_of(size_t v, double share)
{
    static double sorted[MOST_ROUNDS];
    memcpy(sorted, times[v], rounds * sizeof *sorted);
    return quantile(sorted, rounds, share);
}

static struct figures figures_of(size_t v)
{
    return (struct figures){quantile_of(v, 0.5), ratio_to(v, INFINITY), ratio_to(v, quiet_time())};
}

/* One task's times, a row for each variant. */
static void print_times(const struct task *t, const struct figures *each)
{
    printf("\n| %s | median | quartiles | mean | library / it | in quiet rounds |\n", t->title);
    printf("|---|---:|---:|---:|---:|---:|\n");
    for (size_t v = 0; v < variant_count; v++) {
        if (!t->can(variants[v]))
            continue;
        double sum = 0;
        for (size_t r = 0; r < rounds; r++)
            sum += times[v][r];
        printf("| %s | %.2f | %.2f to %.2f | %.2f | %.2f | %.2f |\n", variants[v]->name, each[v].median,
               quantile_of(v, 0.25), quantile_of(v, 0.75), sum / (double)rounds, each[v].ratio, each[v].quiet);
    }
    fflush(stdout);
}

/* The order of a round's visits, drawn by the round's number: no variant always comes after the same one. */
static void draw(size_t *order, size_t round)
{
    random_state = round;
    for (size_t i = 0; i < variant_count; i++) {
        size_t j = below((uint32_t)i + 1);
        order[i] = order[j];
        order[j] = i;
    }
}

static double visit_one(const struct task *t, const struct variant *v, size_t round)
{
    return v->peer != NULL ? peer_visit(v->peer, (size_t)(t - tasks), round) : visit(t, v, round);
}

/* Some rounds, from the preparation on; the peers have made theirs. */
static void run_rounds(const struct task *t, size_t first, size_t end)
{
    for (size_t i = 0; i < variant_count; i++)
        if (t->can(variants[i]) && variants[i]->peer == NULL)
            prepare(t, variants[i]);
    for (size_t r = first; r < end; r++) {
        size_t order[MOST_VARIANTS] = {0};
        draw(order, r);
        for (size_t i = 0; i < variant_count; i++)
            if (t->can(variants[order[i]]))
                times[order[i]][r] = visit_one(t, variants[order[i]], r);
        same_places(t);
    }
}

/* The same in a child process: should it matter where a process's pages stand, one process does not decide the run. */
static void run_child(const struct task *t, size_t first, size_t end)
{
    int status;
    pid_t child = fork();
    if (child == 0) {
        run_rounds(t, first, end);
        _exit(0);
    }
    if (child < 0 || waitpid(child, &status, 0) != child)
        fail("fork", "no child process");
    if (status != 0)
        exit(1);
}

/* Each task has fresh processes of the peers. */
static void start_peers(const struct task *t)
{
    for (size_t i = 0; i < variant_count; i++) {
        struct peer *p = variants[i]->peer;
        if (p == NULL || !t->can(variants[i]))
            continue;
        if (!start_peer(p))
            fail(p->name, "its process does not start again");
        peer_prepare(p, (size_t)(t - tasks));
    }
}

static void end_peers(const struct task *t)
{
    for (size_t i = 0; i < variant_count; i++)
        if (variants[i]->peer != NULL && t->can(variants[i]))
            end_peer(variants[i]->peer);
}

static void measure(const struct task *t, struct figures *each)
{
    memset(times, 0, MOST_VARIANTS * sizeof *times);
    start_peers(t);
    for (size_t first = 0; first < rounds; first += CHILD_ROUNDS)
        run_child(t, first, first + CHILD_ROUNDS < rounds ? first + CHILD_ROUNDS : rounds);
    end_peers(t);
    for (size_t i = 0; i < variant_count; i++)
        if (t->can(variants[i]))
            each[i] = figures_of(i);
}

/* The head of a table of ratios: a column for each variant that can do its first task, since whoever can do another one
 * can do this. */
static void print_head(const char *title, const struct task *first)
{
    printf("\n| %s | the library's median |", title);
    for (size_t v = 1; v < variant_count; v++)
        if (first->can(variants[v]))
            printf(" %s |", variants[v]->name);
    printf("\n|---|---:|");
    for (size_t v = 1; v < variant_count; v++)
        if (first->can(variants[v]))
            printf("---:|");
    printf("\n");
    fflush(stdout);
}

/* The library's median, and the ratios, with those of the quiet rounds in brackets. */
static void print_ratios(const struct task *t, const struct task *first, const struct figures *each)
{
    printf("| %s | %.4g |", t->title, each[0].median);
    for (size_t v = 1; v < variant_count; v++)
        if (t->can(variants[v]))
            printf(" %.2f (%.2f) |", each[v].ratio, each[v].quiet);
        else if (first->can(variants[v]))
            printf(" |");
    printf("\n");
    fflush(stdout);
}

/* A table of the ratios alone, each row as soon as it is measured. */
static void measure_ratios(const char *title, size_t first, size_t end)
{
    print_head(title, &tasks[first]);
    for (size_t i = first; i < end; i++) {
        measure(&tasks[i], figures[i]);
        print_ratios(&tasks[i], &tasks[first], figures[i]);
    }
}

/* A table of the times of each task and then one of all ratios; but of roll call, the audit, two heaps side by side and
 * a statement in one call the ratios alone. */
static void measure_all(void)
{
    for (size_t i = 0; i < FIRST_ROLL; i++) {
        measure(&tasks[i], figures[i]);
        print_times(&tasks[i], figures[i]);
    }
    print_head("library / it (in quiet rounds)", &tasks[0]);
    for (size_t i = 0; i < FIRST_ROLL; i++)
        print_ratios(&tasks[i], &tasks[0], figures[i]);
    measure_ratios("roll call, in µs: library / it (in quiet rounds)", FIRST_ROLL, FIRST_AUDIT);
    measure_ratios("audit, in ns a pool: library / it (in quiet rounds)", FIRST_AUDIT, FIRST_PAIR);
    measure_ratios("two heaps side by side, in µs: library / it (in quiet rounds)", FIRST_PAIR, FIRST_ROW);
    measure_ratios("a statement in one call, in ns an ask: library / it (in quiet rounds)", FIRST_ROW, TASKS);
}

/* ---- a second give-back */

/* The peers that come up and that do not let a second give-back pass; how many. */
static size_t find_peers(struct peer *peers, size_t n, char **words)
{
    size_t found = 0;
    for (size_t i = 0; i < n; i++, words += 3) {
        struct peer p = {.name = words[0], .library = words[1], .command = words[2]};
        bool up = start_peer(&p);
        for (size_t way = 0; up && way < WAYS; way++)
            peer_try(&p, way);
        end_peer(&p);
        if (!up)
            fprintf(stderr, "bench: %s does not run here and is left out\n", p.name);
        else if (passed(p.said[AT_ONCE]) || passed(p.said[AMONG_OTHERS]))
            fprintf(stderr, "bench: %s does not check here and is left out\n", p.name);
        else
            peers[found++] = p;
    }
    return found;
}

/* What a second give-back does. The calls of include/heskavern.h must refuse it as that of a dead block, since others
 * of its pool are out, unless the block is out again. An archive of before W-206 has one number for all that is not
 * live. */
static const char *tried(const struct variant *v, size_t way)
{
    static char said[SAID];
    if (v->peer != NULL)
        return v->peer->said[way];
    fflush(stdout);
    try_again(v, way, said);
    bool dead = refused(said, HESKAVERN_DEAD_BLOCK) || (v->older && refused(said, HESKAVERN_NO_BLOCK));
    if (v->roll_call != NULL && way != OUT_AGAIN && !dead)
        fail(v->name, "a second give-back is not refused as that of a dead block");
    return said;
}

static void print_again(void)
{
    printf("\n| a block given back twice: |");
    for (size_t way = 0; way < WAYS; way++)
        printf(" %s |", ways[way]);
    printf("\n|---|---|---|---|\n");
    for (size_t i = 0; i < variant_count; i++) {
        if (variants[i]->same == NULL)
            continue;
        printf("| %s |", variants[i]->name);
        for (size_t way = 0; way < WAYS; way++)
            printf(" %s |", tried(variants[i], way));
        printf("\n");
    }
    fflush(stdout);
}

/* ---- for callgrind */

static void count_variant(const struct variant *v, size_t edition)
{
    if (has_edition(v, edition)) {
        printf("mixed\t%s_mixed_trace\t%zu\t%s\n", v->stem, run_mixed(v, edition), v->name);
        printf("statement\t%s_statement_trace\t%zu\t%s\n", v->stem, run_statement(v, edition), v->name);
    }
    if (has_rows(v, edition))
        printf("ask\t%s\t%zu\t%s\n", v->row_trace, run_rows(v, edition), v->name);
}

/* Says of each trace by which function it ran, and how many pairs it has, or of rows how many asks. */
static int count(size_t edition, const char *library)
{
    if (library == NULL)
        find_variants(NULL, 0);
    else if ((variants[0] = own_of(library)) != NULL)
        variant_count = 1;
    else
        return 1;
    make_traces();
    for (size_t i = 0; i < variant_count; i++)
        count_variant(variants[i], edition);
    return 0;
}

int main(int argc, char **argv)
{
    static struct peer peers[MOST_PEERS];
    if (argc == 3 && strcmp(argv[1], "peer") == 0)
        serve(argv[2]);
    if ((argc == 3 || argc == 4) && strcmp(argv[1], "count") == 0)
        return count(strtoul(argv[2], NULL, 10), argv[3]);
    if (argc > 1)
        rounds = strtoul(argv[1], NULL, 10);
    size_t words = argc > 2 ? (size_t)argc - 2 : 0;
    if (rounds < 1 || rounds > MOST_ROUNDS || words % 3 != 0 || words > 3 * MOST_PEERS) {
        fprintf(stderr, "usage: measure [ROUNDS [NAME LIBRARY COMMAND]..], at most %d and %d of these\n", MOST_ROUNDS,
                MOST_PEERS);
        return 2;
    }
    times = mmap(NULL, MOST_VARIANTS * sizeof *times, PROT_READ | PROT_WRITE, MAP_SHARED | MAP_ANONYMOUS, -1, 0);
    if (times == MAP_FAILED)
        fail("mmap", "no memory for the times");
    signal(SIGPIPE, SIG_IGN);
    find_variants(peers, find_peers(peers, words / 3, argv + 2));
    make_traces();
    print_again();
    measure_all();
    return 0;
}
