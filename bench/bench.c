/* Times product, division, inverse and GCD of the proved library beside the two baselines (README.md says what and
   how). The tables go to standard output, the progress to standard error. Exit status: 0 when all three gave the same
   words, whether the targets are reached or not; 1 when they did not, when the library refused one of their calls, or
   when it did not refuse what it must. */
#define _POSIX_C_SOURCE 200809L
#include "stock.h"
#include <stdio.h>
#include <time.h>
#include <unistd.h>

enum {
    LEAST_ROUNDS = 10, /* samples of each contender, for each operation of each row */
    LONGEST_RUN = 240  /* seconds; an alarm ends the program then */
};
static const double SAMPLE_SECONDS = 0.0005; /* a sample is as many calls as take this long */
static const double ROUNDS_SECONDS = 0.3;    /* rounds go on until this has passed */

/* The stock systems that are installed. */
static const struct stock *const stocks[] = {
#ifdef HAVE_FLINT
    &flint,
#endif
#ifdef HAVE_NTL
    &ntl,
#endif
#ifdef HAVE_PARI
    &pari,
#endif
    NULL};
enum { STOCKS = sizeof stocks / sizeof stocks[0] - 1, ALL = CONTENDERS + STOCKS };

/* The least seconds of all samples, for one call; 0 where it is not made. */
static double results[LOADS][OPERATIONS][ALL];

/* Stock systems answer on the rows with at most one level. */
static int answering(const struct load *load) { return load->n <= 1 ? ALL : CONTENDERS; }

static const char *name_of(int who) { return who < CONTENDERS ? contenders[who]->name : stocks[who - CONTENDERS]->name; }

/* The seconds that this program has had a processor: what others take away from it does not count. */
static double now(void)
{
    struct timespec t;
    clock_gettime(CLOCK_PROCESS_CPUTIME_ID, &t);
    return (double)t.tv_sec + 1e-9 * (double)t.tv_nsec;
}

/* Ends the program: that one did not answer the call by Done. */
static void not_done(int who, int operation, size_t number)
{
    char what[60];
    snprintf(what, sizeof what, number < 100 ? "refused with number %zu" : "a factor is shown, %zu", number);
    fail(name_of(who), operation, what);
}

/* One call; a stock system's answer becomes words later. */
static size_t make(int who, int operation, long turn)
{
    if (who < CONTENDERS)
        return call(contenders[who], operation, turn);
    stocks[who - CONTENDERS]->run(operation, turn);
    return 0;
}

/* Compares the answers of that many turns with the expected ones. */
static void compare_all(int who, int operation, long count)
{
    for (long turn = 0; who >= CONTENDERS && turn < count; turn++)
        stocks[who - CONTENDERS]->give(operation, turn, answer_slot(operation, turn), remainder_slot());
    compare(name_of(who), operation, count);
}

/* The seconds of one call, the mean of so many in a row. The answer slots are spoilt before and compared after. */
static double sample(int who, int operation, long calls)
{
    const long all = turns(operation), used = calls < all ? calls : all;
    spoil(operation, used);
    const double start = now();
    for (long i = 0, turn = 0; i < calls; i++) {
        const size_t number = make(who, operation, turn);
        if (number != 0)
            not_done(who, operation, number);
        turn = turn + 1 < all ? turn + 1 : 0;
    }
    const double seconds = (now() - start) / (double)calls;
    compare_all(who, operation, used);
    return seconds;
}

/* How many calls make a sample. */
static long calls_of_sample(int who, int operation)
{
    long calls = 1;
    while ((double)calls * sample(who, operation, calls) < SAMPLE_SECONDS)
        calls *= 2;
    return calls;
}

/* The contenders take turns, each round begun by another one, so that a disturbance meets all alike. */
static void measure(int count, int operation, double seconds[ALL])
{
    long calls[ALL];
    for (int who = 0; who < count; who++) {
        calls[who] = calls_of_sample(who, operation);
        seconds[who] = sample(who, operation, calls[who]);
    }
    const double start = now();
    for (int round = 0; round < LEAST_ROUNDS || now() - start < ROUNDS_SECONDS; round++)
        for (int turn = 0; turn < count; turn++) {
            const int who = (round + turn) % count;
            const double again = sample(who, operation, calls[who]);
            if (again < seconds[who])
                seconds[who] = again;
        }
}

/* Every row, with every operation. */
static void measure_all(void)
{
    for (int row = 0; row < LOADS; row++) {
        fprintf(stderr, "\r%2d of %d: %-*s", row + 1, LOADS, LABEL_LENGTH, label(&loads[row]));
        prepare(&loads[row]);
        const int count = answering(&loads[row]);
        const struct operands taken = operands();
        for (int who = CONTENDERS; who < count; who++)
            stocks[who - CONTENDERS]->take(&taken);
        for (int operation = 0; operation < OPERATIONS; operation++)
            measure(count, operation, results[row][operation]);
    }
    fprintf(stderr, "\r%*s\r", LABEL_LENGTH + 10, "");
}

/* One row of an operation's table; a stock system that does not answer has a dash. */
static void print_row(int row, const double seconds[ALL])
{
    printf("%-*s %12.2f %12.2f %9.2f", LABEL_LENGTH, label(&loads[row]), 1e6 * seconds[KERNEL],
           seconds[PUBLISHED] / seconds[KERNEL], seconds[KERNEL] / seconds[TUNED]);
    for (int who = CONTENDERS; who < ALL; who++)
        if (who < answering(&loads[row]))
            printf(" %9.2f", seconds[KERNEL] / seconds[who]);
        else
            printf(" %9s", "-");
    printf("\n");
}

/* The table of an operation. */
static void print_table(int operation)
{
    printf("%-*s %12s %12s %9s", LABEL_LENGTH, operations[operation], "kernel", "published/", "kernel/");
    for (int who = CONTENDERS; who < ALL; who++)
        printf(" %9s", "kernel/");
    printf("\n%-*s %12s %12s %9s", LABEL_LENGTH, "", "microseconds", "kernel", "tuned");
    for (int who = CONTENDERS; who < ALL; who++)
        printf(" %9s", name_of(who));
    printf("\n");
    for (int row = 0; row < LOADS; row++)
        print_row(row, results[row][operation]);
    printf("\n");
}

/* Which rows a target covers. */
static int has_levels(const struct load *load) { return load->n >= 1; }
static int has_one_or_two_levels(const struct load *load) { return load->n == 1 || load->n == 2; }
static int is_2_30(const struct load *load) { return load->n == 2 && load->degrees[0] == 2; }
static int is_3_3_3(const struct load *load) { return load->n == 3; }

/* On every row that it covers, and for the operations from first to last, the kernel is to be at least so many times
   as fast as that contender. */
struct target {
    const char *text;
    int first, last;
    int (*covers)(const struct load *);
    int against;
    double least;
};

static const struct target targets[] = {
    {"product and division: no row with N >= 1 slower than the published algorithm", PRODUCT, DIVISION, has_levels,
     PUBLISHED, 1},
    {"product and division: at least 4 times as fast as it on d = (2, 30)", PRODUCT, DIVISION, is_2_30, PUBLISHED, 4},
    {"product and division: at least 2 times as fast as it on d = (3, 3, 3)", PRODUCT, DIVISION, is_3_3_3, PUBLISHED,
     2},
    {"product and division: within 2 of the tuned design on every row with N = 1 or 2", PRODUCT, DIVISION,
     has_one_or_two_levels, TUNED, 0.5},
    {"GCD: no row with N >= 1 slower than the published algorithm", GCD, GCD, has_levels, PUBLISHED, 1},
    {"GCD: at least 2 times as fast as it on d = (2, 30)", GCD, GCD, is_2_30, PUBLISHED, 2},
};
enum { TARGETS = sizeof targets / sizeof targets[0] };

/* How many times as fast the kernel is as that contender. */
static double times_as_fast(int row, int operation, int against)
{
    const double *seconds = results[row][operation];
    return seconds[against] / seconds[KERNEL];
}

/* Whether a target is reached, and where the kernel comes out worst for it, by the ratio that stands in the table. */
static void print_target(const struct target *target)
{
    double worst = 0;
    int worst_row = -1, worst_operation = 0;
    for (int row = 0; row < LOADS; row++)
        for (int operation = target->first; operation <= target->last; operation++) {
            const double ratio = times_as_fast(row, operation, target->against);
            if (target->covers(&loads[row]) && (worst_row < 0 || ratio < worst)) {
                worst = ratio;
                worst_row = row;
                worst_operation = operation;
            }
        }
    printf("%-8s %s; at worst %.2f, %s, %s\n", worst >= target->least ? "reached:" : "missed:", target->text,
           target->against == TUNED ? 1 / worst : worst, operations[worst_operation], label(&loads[worst_row]));
}

/* Sees that the library refuses and that all show a factor, measures, then prints the tables and the targets. */
int main(void)
{
    alarm(LONGEST_RUN);
    check_refusals();
    check_factor();
    measure_all();
    printf("p = %d, least times of one call. Product is of degree n by n, division of 2n by n, GCD of n and n.\n\n", P);
    for (int operation = 0; operation < OPERATIONS; operation++)
        print_table(operation);
    for (int i = 0; i < TARGETS; i++)
        print_target(&targets[i]);
    return 0;
}
