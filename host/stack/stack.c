/* The stack that each service takes, called from C on the tables of the files, as they are and with grades. Each call is made in a process of its own, so
 * that it also finds the C library's memset by name, as a program's first call does, in a thread whose stack has an inaccessible page and then a watched
 * area below it:
 *   - on a large stack filled with one byte: what it changed is what it takes, and must be at most what haplotypes.h tells;
 *   - with just the bytes that haplotypes.h tells free: it must return the same;
 *   - on each stack of whole pages that is too small: it must end by SIGSEGV at that page, and the area below must be as it was.
 * usage: stack FILE..   prints of each service its name, the most bytes taken and the bytes told; then how many stacks were too small */
#define _GNU_SOURCE
#include "../calling.h"

#include <alloca.h>
#include <pthread.h>
#include <signal.h>
#include <string.h>
#include <sys/mman.h>
#include <sys/resource.h>
#include <sys/wait.h>
#include <unistd.h>

enum { PAGE = 4096, BELOW = 1 << 20, STACK = 1 << 20, LEAST_STACK = 4 * PAGE, OUTPUT = 2 * HAPLOTYPES_WORK, FILL = 0xA5 };

static const size_t told[SERVICES] = {
    HAPLOTYPES_STACK_UNPACK,
    HAPLOTYPES_STACK_PACK,
    HAPLOTYPES_STACK_FIND,
    HAPLOTYPES_STACK_CHECK,
    HAPLOTYPES_STACK_CONFLICT_COUNTS,
    HAPLOTYPES_STACK_LEAST_SNP_REMOVAL,
    HAPLOTYPES_STACK_LEAST_FRAGMENT_REMOVAL,
    HAPLOTYPES_STACK_LEAST_CORRECTIONS,
};

/* the call to make */
static uint8_t table[HAPLOTYPES_RECORD * HAPLOTYPES_MOST_FRAGMENTS], cells[HAPLOTYPES_MOST_FRAGMENTS * HAPLOTYPES_MOST_COLUMNS];
static uint32_t tags[HAPLOTYPES_MOST_FRAGMENTS];
static uint8_t grades[HAPLOTYPES_MOST_FRAGMENTS];
static size_t length, columns;
static enum service service;
static struct given in[GIVEN];
static struct lent out[LENT];

/* in memory that the processes share: the area below, the inaccessible page, the stack; the outputs, each with room for any; and what happened */
static uint8_t *below, *guard, *stack, *outputs;
static struct {
    uint64_t code;
    size_t taken;
    const uint8_t *fault;
} *seen;

static size_t free_bytes; /* to leave below the call; 0: all there are */

static void fail(const char *name, const char *what)
{
    fprintf(stderr, "stack: %s %s\n", name, what);
    exit(1);
}

/* ---- in the process that makes the call */

/* not by memset, which the call must be the first to find */
static void fill(uint8_t *bytes, size_t count)
{
    volatile uint8_t *place = bytes;
    for (size_t i = 0; i < count; i++)
        place[i] = FILL;
}

/* Notes the place and returns to the instruction, which now ends the process. */
static void note_fault(int number, siginfo_t *info, void *context)
{
    (void)context;
    seen->fault = info->si_addr;
    signal(number, SIG_DFL);
}

static void *make_call(void *unused)
{
    static uint8_t other_stack[16 * PAGE];
    const stack_t other = {.ss_sp = other_stack, .ss_size = sizeof other_stack};
    if (sigaltstack(&other, NULL))
        _exit(2);
    volatile uint8_t *base = __builtin_frame_address(0);
    if (free_bytes) {
        volatile uint8_t *used = alloca((size_t)(base - stack) - free_bytes);
        base = used;
        used[0] = FILL;
    }
    seen->code = call(service, columns, in, out);
    const uint8_t *untouched = stack;
    while (untouched < base && *untouched == FILL)
        untouched++;
    seen->taken = (size_t)(base - untouched);
    return unused;
}

/* The process: the call in a thread on the first `size` bytes of the stack. */
static void child(size_t size)
{
    const struct rlimit none = {0, 0};
    const struct sigaction action = {.sa_sigaction = note_fault, .sa_flags = SA_SIGINFO | SA_ONSTACK};
    stack_t unset;
    pthread_attr_t attributes;
    pthread_t thread;
    fill(stack, size);
    /* sigaltstack once here, so that in the thread it is found already and changes nothing of its stack */
    if (setrlimit(RLIMIT_CORE, &none) || sigaction(SIGSEGV, &action, NULL) || sigaltstack(NULL, &unset))
        _exit(2);
    if (pthread_attr_init(&attributes) || pthread_attr_setstack(&attributes, stack, size) || pthread_create(&thread, &attributes, make_call, NULL) ||
        pthread_join(thread, NULL))
        _exit(2);
    _exit(0);
}

/* ---- in the first process */

/* How the process ended that made the call. */
static int made(size_t size, size_t bytes)
{
    int status;
    free_bytes = bytes;
    seen->code = UINT64_MAX;
    seen->taken = 0;
    seen->fault = NULL;
    const pid_t process = fork();
    if (process == 0)
        child(size);
    if (process < 0 || waitpid(process, &status, 0) != process)
        fail("a process", "cannot be made");
    return status;
}

static void map_memory(void)
{
    const int shared = MAP_SHARED | MAP_ANONYMOUS, access = PROT_READ | PROT_WRITE;
    below = mmap(NULL, BELOW + PAGE + STACK, access, shared, -1, 0);
    outputs = mmap(NULL, LENT * OUTPUT, access, shared, -1, 0);
    seen = mmap(NULL, sizeof *seen, access, shared, -1, 0);
    if (below == MAP_FAILED || outputs == MAP_FAILED || (void *)seen == MAP_FAILED || sysconf(_SC_PAGESIZE) != PAGE)
        fail("memory", "cannot be had");
    guard = below + BELOW;
    stack = guard + PAGE;
    if (mprotect(guard, PAGE, PROT_NONE))
        fail("a page", "cannot be made inaccessible");
    fill(below, BELOW);
}

/* The service on the table that was read; pack, which comes after unpack, on what that wrote. */
static void set_call(enum service which)
{
    size_t lengths[LENT];
    const size_t m = length / HAPLOTYPES_RECORD;
    service = which;
    if (which == PACK) {
        memcpy(cells, outputs, m * columns);
        memcpy(tags, outputs + OUTPUT, 4 * m);
        memcpy(grades, outputs + 2 * OUTPUT, m);
    }
    in[0] = which == PACK ? (struct given){cells, m * columns} : (struct given){table, length};
    in[1] = (struct given){tags, 4 * m};
    in[2] = (struct given){grades, m};
    exact_lengths(which, columns, m, lengths);
    for (size_t k = 0; k < LENT; k++)
        out[k] = (struct lent){outputs + k * OUTPUT, lengths[k]};
}

/* Is the code one of an accepted call? S and F alone may refuse mates, C tables that are too deep, and pack fragments without calls. */
static int accepted(uint64_t code)
{
    const uint64_t number = service == CHECK ? haplotypes_verdict_refusal(code) : haplotypes_count_refusal(code);
    const int gapped = number == HAPLOTYPES_GAPPED && (service == SNPS || service == FRAGMENTS);
    const int deep = number == HAPLOTYPES_TOO_DEEP && service == CORRECTIONS;
    const int uncalled = number == HAPLOTYPES_NO_CALLS && service == PACK;
    if (number != HAPLOTYPES_ACCEPTED && !gapped && !deep && !uncalled)
        fail(service_names[service], "refuses a table");
    return number == HAPLOTYPES_ACCEPTED;
}

/* What the call takes, and 0 where it is refused. */
static size_t taken(void)
{
    if (made(STACK, 0) != 0)
        fail(service_names[service], "fails on a large stack");
    const uint64_t code = seen->code;
    const size_t bytes = seen->taken;
    if (!accepted(code))
        return 0;
    if (bytes == 0 || told[service] < bytes) {
        fprintf(stderr, "stack: %s takes %zu bytes, and callers are told %zu\n", service_names[service], bytes, told[service]);
        exit(1);
    }
    if (made(STACK, told[service]) != 0 || seen->code != code)
        fail(service_names[service], "fails on the stack that callers are told");
    return bytes;
}

/* The stacks of whole pages on which the call must fail, all below `least`. */
static size_t too_small(size_t least)
{
    size_t count = 0;
    for (size_t size = LEAST_STACK; size < least; size += PAGE, count++) {
        const int status = made(size, 0);
        if (!WIFSIGNALED(status) || WTERMSIG(status) != SIGSEGV || seen->fault < guard || stack <= seen->fault) {
            fprintf(stderr, "stack: %s on %zu bytes does not end at the page below\n", service_names[service], size);
            exit(1);
        }
        for (size_t i = 0; i < BELOW; i++)
            if (below[i] != FILL)
                fail(service_names[service], "has written below its stack");
    }
    return count;
}

/* Every service on the table: raises the most that each takes, and counts the stacks that were too small. */
static size_t measure(size_t *most)
{
    size_t small = 0;
    for (int which = UNPACK; which < SERVICES; which++) {
        set_call((enum service)which);
        const size_t bytes = taken();
        small += too_small(bytes);
        if (most[which] < bytes)
            most[which] = bytes;
    }
    return small;
}

int main(int count, char **names)
{
    size_t most[SERVICES] = {0}, small = 0;
    map_memory();
    for (int i = 1; i < count; i++) {
        if (!read_table(names[i], table, &length, &columns))
            fail(names[i], "is no table");
        small += measure(most);
        mix_grades(table, length);
        small += measure(most);
    }
    for (int which = UNPACK; which < SERVICES; which++) {
        if (most[which] == 0)
            fail(service_names[which], "has accepted no table");
        printf("%s %zu %zu\n", service_names[which], most[which], told[which]);
    }
    printf("%zu\n", small);
    return 0;
}
