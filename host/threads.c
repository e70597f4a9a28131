/* Calls all services from several threads at once, on shared tables, with grades, and outputs of their own: what each call returns and writes must be
 * what it does in one thread. A thread has the stack that F takes by haplotypes.h, and room for its own frames.
 * usage: threads ROUNDS TABLE..   prints the number of calls made at once */
#define _POSIX_C_SOURCE 200809L
#include "calling.h"

#include <pthread.h>
#include <string.h>

/* A thread's own frames and its variables, which the C library puts on its stack too; the thread sanitizer of gcc has 768 KiB of those. */
#ifdef __SANITIZE_THREAD__
enum { OWN_STACK = 1024 * 1024 };
#else
enum { OWN_STACK = 32 * 1024 };
#endif

enum { THREADS = 8, TABLE_ROOM = HAPLOTYPES_RECORD * HAPLOTYPES_MOST_FRAGMENTS };

/* A call with its outputs as one thread alone had them. */
struct job {
    enum service service;
    size_t n;
    struct given in[GIVEN];
    struct lent out[LENT];
    uint64_t code;
};

static struct job *jobs;
static size_t job_count, rounds;
static pthread_barrier_t start;

static void fail(const char *name, const char *what)
{
    fprintf(stderr, "threads: %s %s\n", name, what);
    exit(1);
}

/* Makes the job's call on outputs that hold no byte of an answer. */
static uint64_t run(const struct job *job, struct lent *out)
{
    for (size_t k = 0; k < LENT; k++) {
        out[k].length = job->out[k].length;
        out[k].bytes = room(out[k].length);
        memset(out[k].bytes, 0xA5, out[k].length);
    }
    return call(job->service, job->n, job->in, out);
}

/* the tag of the table's last record, which find must pass all others to reach */
static size_t last_tag(const uint8_t *table, size_t length)
{
    uint32_t tag;
    memcpy(&tag, table + length - HAPLOTYPES_RECORD, sizeof tag);
    return tag;
}

/* Adds a service on a table. What unpack wrote is pack's input. */
static void add_job(enum service service, size_t n, const uint8_t *table, size_t length)
{
    struct job *job = &jobs[job_count++];
    size_t lengths[LENT];
    const struct job *unpacked = job - 1;
    job->service = service;
    job->n = service == FIND ? last_tag(table, length) : n;
    for (size_t k = 0; k < GIVEN; k++)
        job->in[k] = service == PACK ? (struct given){unpacked->out[k].bytes, unpacked->out[k].length} : (struct given){table, k == 0 ? length : 0};
    exact_lengths(service, n, length / HAPLOTYPES_RECORD, lengths);
    for (size_t k = 0; k < LENT; k++)
        job->out[k].length = lengths[k];
    job->code = run(job, job->out);
    if (service == CHECK ? haplotypes_verdict_refusal(job->code) : !haplotypes_count_accepted(job->code))
        fail(service_names[service], "refuses a table");
}

static void add_table(const char *name)
{
    uint8_t *table = room(TABLE_ROOM);
    size_t length, n;
    if (!read_table(name, table, &length, &n) || length == 0)
        fail(name, "is no table");
    mix_grades(table, length);
    for (int service = UNPACK; service < SERVICES; service++)
        add_job((enum service)service, n, table, length);
}

/* Every job, from another one on in each thread, so that different services meet. */
static void *work(void *first)
{
    pthread_barrier_wait(&start);
    for (size_t i = 0; i < rounds * job_count; i++) {
        const struct job *job = &jobs[(*(size_t *)first + i) % job_count];
        struct lent out[LENT];
        int same = run(job, out) == job->code;
        for (size_t k = 0; k < LENT; k++) {
            same = same && memcmp(out[k].bytes, job->out[k].bytes, out[k].length) == 0;
            free(out[k].bytes);
        }
        if (!same)
            fail(service_names[job->service], "differs from its call in one thread");
    }
    return NULL;
}

static void meet(void)
{
    pthread_t threads[THREADS];
    size_t firsts[THREADS];
    pthread_attr_t attributes;
    if (pthread_barrier_init(&start, NULL, THREADS) || pthread_attr_init(&attributes) ||
        pthread_attr_setstacksize(&attributes, HAPLOTYPES_STACK_LEAST_FRAGMENT_REMOVAL + OWN_STACK))
        fail("threads", "cannot be made");
    for (size_t i = 0; i < THREADS; i++) {
        firsts[i] = i;
        if (pthread_create(&threads[i], &attributes, work, &firsts[i]))
            fail("a thread", "cannot be made");
    }
    for (size_t i = 0; i < THREADS; i++)
        if (pthread_join(threads[i], NULL))
            fail("a thread", "is lost");
    pthread_attr_destroy(&attributes);
    pthread_barrier_destroy(&start);
}

int main(int count, char **words)
{
    if (count < 3)
        return 2;
    rounds = strtoul(words[1], NULL, 10);
    jobs = calloc((size_t)count * SERVICES, sizeof *jobs);
    if (!jobs || rounds == 0)
        fail("no calls", "to make");
    for (int i = 2; i < count; i++)
        add_table(words[i]);
    meet();
    printf("%d threads, %zu calls\n", THREADS, THREADS * rounds * job_count);
    return 0;
}
