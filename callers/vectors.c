/* Makes the calls that test lines ask for, through the C interface, and prints the answers: the same lines as those of
 * the program of crates/vectors, on whose lines and answers it is run.
 *
 * A line is a call's name and its arguments, a lent list as its count and its words. An answer is the name, what the
 * call answers, what stands beside it, and every lent list as it is afterwards. Each list stands in memory of its own
 * that is as long as the list; a list of no words is NULL. */
#define _POSIX_C_SOURCE 200809L
#include <errno.h>
#include <inttypes.h>
#include <stdio.h>
#include <stdlib.h>
#include <string.h>

#include "mausvioline.h"

#define MOST_NUMBERS 7
#define MOST_LISTS 6

struct list {
    int64_t *words;
    size_t count;
};

/* What a line gives: the numbers before its lists, and its lists. */
struct given {
    int64_t numbers[MOST_NUMBERS];
    struct list lists[MOST_LISTS];
};

static void stop(const char *why, unsigned long line)
{
    fprintf(stderr, "vectors: line %lu: %s\n", line, why);
    exit(2);
}

static void put_list(const int64_t *words, size_t count)
{
    printf("\t%zu", count);
    for (size_t i = 0; i < count; i++)
        printf("\t%" PRId64, words[i]);
}

static void put_answer(size_t answer)
{
    if (answer == 0)
        fputs("\tdone", stdout);
    else if (answer < MAUSVIOLINE_FACTOR)
        printf("\trefused\t%zu", answer);
    else
        printf("\tfactor\t%zu", answer - MAUSVIOLINE_FACTOR);
}

/* p, n and the degrees, and a list, as a call takes them. */
#define OVER g->numbers[0], g->numbers[1], g->numbers + 2
#define LIST(k) g->lists[k].words, g->lists[k].count

static void make_fraction(struct given *g)
{
    uint64_t residue = 0;
    put_answer(mausvioline_fraction(g->numbers[0], g->numbers[1], g->numbers[2], &residue));
    printf("\t%" PRIu64, residue);
}

static void make_sizes(struct given *g)
{
    size_t sizes[3] = {0, 0, 0};
    put_answer(mausvioline_work_sizes(g->numbers[0], g->numbers + 1, g->numbers[5], g->numbers[6], sizes));
    printf("\t%zu\t%zu\t%zu", sizes[0], sizes[1], sizes[2]);
}

static void make_tower(struct given *g)
{
    put_answer(mausvioline_check_tower(OVER, LIST(0)));
}

static void make_slot(struct given *g)
{
    put_answer(mausvioline_check_slot(OVER, LIST(0), LIST(1)));
}

/* The leading view has no answer; the words that it shows stand beside the name, as a list. */
static void make_view(struct given *g)
{
    size_t start, count;
    size_t slot = mausvioline_leading_view(OVER, LIST(0), LIST(1), LIST(2), &start, &count);
    put_list(slot == 0 ? NULL : g->lists[slot].words + start, count);
}

static void make_sum(struct given *g)
{
    put_answer(mausvioline_sum(OVER, LIST(0), LIST(1), LIST(2)));
}

static void make_difference(struct given *g)
{
    put_answer(mausvioline_difference(OVER, LIST(0), LIST(1), LIST(2)));
}

static void make_product(struct given *g)
{
    put_answer(mausvioline_product(OVER, LIST(0), LIST(1), LIST(2), LIST(3), LIST(4)));
}

static void make_division(struct given *g)
{
    put_answer(mausvioline_division(OVER, LIST(0), LIST(1), LIST(2), LIST(3), LIST(4)));
}

static void make_inverse(struct given *g)
{
    put_answer(mausvioline_inverse(OVER, LIST(0), LIST(1), LIST(2), LIST(3), LIST(4)));
}

static void make_gcd(struct given *g)
{
    put_answer(mausvioline_gcd(OVER, LIST(0), LIST(1), LIST(2), LIST(3), LIST(4), LIST(5)));
}

/* Each call: its name in a line, how many numbers and lists it takes, and how it is made. */
static const struct call {
    const char *name;
    size_t numbers, lists;
    void (*make)(struct given *);
} calls[] = {
    {"fraction", 3, 0, make_fraction}, {"sizes", 7, 0, make_sizes},       {"tower", 6, 1, make_tower},
    {"slot", 6, 2, make_slot},         {"view", 6, 3, make_view},         {"sum", 6, 3, make_sum},
    {"difference", 6, 3, make_difference}, {"product", 6, 5, make_product}, {"division", 6, 5, make_division},
    {"inverse", 6, 5, make_inverse},   {"gcd", 6, 6, make_gcd},
};

static const struct call *named(const char *name, size_t length)
{
    for (size_t i = 0; i < sizeof calls / sizeof *calls; i++)
        if (strlen(calls[i].name) == length && memcmp(calls[i].name, name, length) == 0)
            return &calls[i];
    return NULL;
}

/* The next number of a line, behind a tab. */
static int64_t number_in(char **at, unsigned long line)
{
    if (**at != '\t')
        stop("a number is missing", line);
    char *end;
    errno = 0;
    int64_t number = strtoll(*at + 1, &end, 10);
    if (end == *at + 1 || errno != 0)
        stop("not a number", line);
    *at = end;
    return number;
}

static struct list list_in(char **at, unsigned long line)
{
    int64_t count = number_in(at, line);
    if (count < 0 || 70000 < count)
        stop("no count of a list", line);
    struct list list = {count == 0 ? NULL : malloc((size_t)count * sizeof(int64_t)), (size_t)count};
    if (count != 0 && list.words == NULL)
        stop("no memory", line);
    for (int64_t i = 0; i < count; i++)
        list.words[i] = number_in(at, line);
    return list;
}

static void answer(char *text, unsigned long line)
{
    size_t length = strcspn(text, "\t\n");
    const struct call *call = named(text, length);
    if (call == NULL)
        stop("no such call", line);
    char *at = text + length;
    struct given given;
    for (size_t i = 0; i < call->numbers; i++)
        given.numbers[i] = number_in(&at, line);
    for (size_t i = 0; i < call->lists; i++)
        given.lists[i] = list_in(&at, line);
    if (*at != '\n' && *at != 0)
        stop("more than the call takes", line);
    fputs(call->name, stdout);
    call->make(&given);
    for (size_t i = 0; i < call->lists; i++) {
        put_list(given.lists[i].words, given.lists[i].count);
        free(given.lists[i].words);
    }
    putchar('\n');
}

int main(void)
{
    char *text = NULL;
    size_t room = 0;
    unsigned long line = 0;
    while (getline(&text, &room, stdin) > 0)
        answer(text, ++line);
    free(text);
    return fflush(stdout) == 0 ? 0 : 1;
}
