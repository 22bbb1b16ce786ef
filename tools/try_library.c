/* Tries the library through include/skew.h; test_library.py says what is due.
 *
 *   list FILE..            the listing of each network file, as RULES 9.2 and 9.3 have it, with an empty line after each
 *   threads ROUNDS FILE..  each file in a thread of its own, all at once, so many times, against one after another
 *   stack FILE..           the bytes of stack that the call takes, and a thread with it, at most
 *   empty FILE             the numbers of calls that lend no bytes for the file, for the output, and for neither
 */
#define _POSIX_C_SOURCE 200809L
#include <inttypes.h>
#include <pthread.h>
#include <stdio.h>
#include <stdlib.h>
#include <string.h>

#include "skew.h"

enum { PAINT = 0xa5, PAGE = 4096, AMPLE = 256 * PAGE, ASKED = 16 };

/* What a call leaves, and the sum of the slacks that are asked for where it has an answer. */
struct left {
    uint64_t result;
    uint8_t out[SKEW_MAX_ROOM];
    int64_t slacks;
};

struct job {
    uint8_t file[SKEW_MAX_FILE];
    size_t size;
    struct left alone, beside;
    int rounds, wrong;
};

static pthread_barrier_t gate;

static void stop(const char *why)
{
    fprintf(stderr, "try_library: %s\n", why);
    exit(1);
}

static struct job *load(const char *name)
{
    struct job *job = calloc(1, sizeof *job);
    FILE *in = fopen(name, "rb");
    if (job == NULL || in == NULL)
        stop("a file cannot be read");
    job->size = fread(job->file, 1, sizeof job->file, in);
    fclose(in);
    return job;
}

static int64_t slack_of(const struct job *job, const uint8_t *out, int32_t kind, int32_t path)
{
    int32_t tail = skew_latency(out, skew_tail(job->file, kind, path)), head = skew_latency(out, skew_head(job->file, kind, path));
    return skew_slack(skew_question(job->file, job->size, skew_period(out), kind, path, tail, head));
}

static void call(const struct job *job, struct left *left)
{
    memset(left->out, PAINT, sizeof left->out);
    left->slacks = 0;
    left->result = skew_schedule(job->file, job->size, left->out, sizeof left->out);
    if (skew_number(left->result) != SKEW_ANSWERED)
        return;
    for (int32_t path = 0; path < ASKED && path < (int32_t)skew_paths(job->file); path++)
        left->slacks += slack_of(job, left->out, SKEW_SETUP, path) + slack_of(job, left->out, SKEW_HOLD, path);
}

static void list(const char *name)
{
    struct job *job = load(name);
    const uint8_t *out = job->alone.out;
    call(job, &job->alone);
    uint32_t number = skew_number(job->alone.result);
    int shown = number == SKEW_ANSWERED || number == SKEW_NO_PERIOD || number == SKEW_NONE_TO_CEILING;
    if (number == SKEW_ANSWERED)
        printf("period %" PRId32 "\n", skew_period(out));
    else
        printf("refused %" PRIu32 " %" PRIu32 "\n", number, skew_place(job->alone.result));
    for (size_t i = 0; shown && i < skew_latencies(out); i++)
        printf("latency %zu %" PRId32 "\n", i, skew_latency(out, i));
    if (shown && skew_entries(out) > 0)
        printf("loop %" PRId32 "\n", number == SKEW_ANSWERED ? skew_period(out) - 1 : skew_get_number(job->file + 14));
    for (size_t j = 0; shown && j < skew_entries(out); j++)
        printf("%s %" PRId32 "\n", skew_kind_name(skew_entry_kind(out, j)), skew_entry_number(out, j));
    puts("");
    free(job);
}

static void *work(void *given)
{
    struct job *job = given;
    pthread_barrier_wait(&gate);
    for (int round = 0; round < job->rounds; round++) {
        call(job, &job->beside);
        int same = job->alone.result == job->beside.result && job->alone.slacks == job->beside.slacks &&
                   memcmp(job->alone.out, job->beside.out, sizeof job->alone.out) == 0;
        job->wrong += !same;
    }
    return NULL;
}

static void threads(int rounds, char **names, int count)
{
    struct job *jobs[256];
    pthread_t ids[256];
    pthread_attr_t small;
    int wrong = 0;
    if (count > 256 || pthread_barrier_init(&gate, NULL, (unsigned)count) != 0)
        stop("so many threads cannot be had");
    if (pthread_attr_init(&small) != 0 || pthread_attr_setstacksize(&small, SKEW_STACK) != 0)
        stop("this stack cannot be had");
    for (int i = 0; i < count; i++) {
        jobs[i] = load(names[i]);
        jobs[i]->rounds = rounds;
        call(jobs[i], &jobs[i]->alone);
    }
    for (int i = 0; i < count; i++)
        if (pthread_create(&ids[i], &small, work, jobs[i]) != 0)
            stop("a thread cannot be had");
    for (int i = 0; i < count; i++) {
        pthread_join(ids[i], NULL);
        printf("%" PRIu32 " ", skew_number(jobs[i]->beside.result));
        wrong += jobs[i]->wrong;
        free(jobs[i]);
    }
    printf("\nthreads %d, wrong %d\n", count, wrong);
}

static void *nothing(void *given) { return given; }

static void *schedule(void *given)
{
    struct job *job = given;
    job->alone.result = skew_schedule(job->file, job->size, job->alone.out, sizeof job->alone.out);
    return NULL;
}

/* The lowest byte that lost its paint shows how deep the thread went. */
static size_t depth(void *(*run)(void *), struct job *job)
{
    void *stack;
    pthread_attr_t given;
    pthread_t id;
    size_t kept = 0;
    if (posix_memalign(&stack, PAGE, AMPLE) != 0)
        stop("there is no memory for a stack");
    memset(stack, PAINT, AMPLE);
    if (pthread_attr_init(&given) != 0 || pthread_attr_setstack(&given, stack, AMPLE) != 0 || pthread_create(&id, &given, run, job) != 0)
        stop("a thread on this stack cannot be had");
    pthread_join(id, NULL);
    while (((const uint8_t *)stack)[kept] == PAINT)
        kept++;
    free(stack);
    return AMPLE - kept;
}

/* A thread that does nothing is taken off the call. What a first call binds may go deeper, so it counts for the thread alone. */
static void stack(char **names, int count)
{
    size_t call_most = 0, thread_most = 0, empty = depth(nothing, NULL);
    for (int i = 0; i < count; i++) {
        struct job *job = load(names[i]);
        size_t first = depth(schedule, job), second = depth(schedule, job);
        thread_most = first > thread_most ? first : thread_most;
        call_most = second - empty > call_most ? second - empty : call_most;
        free(job);
    }
    printf("%zu %zu %d\n", call_most, thread_most, SKEW_STACK);
}

static void empty(const char *name)
{
    struct job *job = load(name);
    uint8_t none = PAINT, other = PAINT;
    printf("%" PRIu32, skew_number(skew_schedule(&none, 0, job->alone.out, sizeof job->alone.out)));
    printf(" %" PRIu32, skew_number(skew_schedule(job->file, job->size, &other, 0)));
    printf(" %" PRIu32, skew_number(skew_schedule(&none, 0, &other, 0)));
    printf(" %" PRIu32 " %d\n", skew_number(skew_question(&none, 0, 1, 0, 0, 0, 0)), none == PAINT && other == PAINT);
    free(job);
}

int main(int count, char **given)
{
    const char *command = count > 2 ? given[1] : "";
    if (strcmp(command, "list") == 0)
        for (int i = 2; i < count; i++)
            list(given[i]);
    else if (strcmp(command, "threads") == 0)
        threads(atoi(given[2]), given + 3, count - 3);
    else if (strcmp(command, "stack") == 0)
        stack(given + 2, count - 2);
    else if (strcmp(command, "empty") == 0)
        empty(given[2]);
    else
        return 2;
    return 0;
}
