/* desk: runs the table on standard input under the schedule behind it, by vangpear_run, and prints how the run came out
 * and where each thread stands. It reads and prints what the program `desk` does: docs/FORMAT.md, Running a schedule.
 * Exit status: 0 ended or open, 1 stuck, 2 refused, 3 trouble (input that cannot be read and the like). */
#include "runner.h"

#include <errno.h>
#include <signal.h>
#include <stdio.h>
#include <string.h>

/* The input: so many bytes before the table, then at most so many of the table, and so many of the schedule. */
#define HEAD 3u
#define TABLE_LIMIT 65535u
#define SCHEDULE_LIMIT 65536u

/* How many routines a table has at most. */
#define ROUTINES 64u

enum { GOING = 0, STUCK = 1, REFUSED = 2, TROUBLE = 3 };

/* The codes of items. */
enum { END, NEW, LOCK, FORK, CHOICE, OTHER, CALL, MIRROR };

/* What is to be run. */
struct order {
    const uint8_t *table;
    size_t length;
    const uint8_t *schedule;
    size_t bytes;
    size_t lent;
};

/* An accepted table's parts: how many parameters each routine has, the body section, and where in it bodies begin. */
struct parts {
    const uint8_t *parameters;
    const uint8_t *section;
    size_t routines;
    size_t starts[ROUTINES];
};

/* The threads that were started. */
struct threads {
    const struct vangpear_thread *records;
    size_t number;
};

/* Says what is the matter with standard input or output, by errno if that has something. */
static int trouble(const char *name, const char *what)
{
    fprintf(stderr, "desk: %s: %s\n", name, errno != 0 ? strerror(errno) : what);
    return TROUBLE;
}

static size_t least(size_t a, size_t b)
{
    return a < b ? a : b;
}

/* A byte of the input; one that is missing is 0. */
static size_t byte_at(const uint8_t *input, size_t size, size_t at)
{
    return at < size ? input[at] : 0;
}

/* Takes the input apart, which may end early. */
static struct order take_apart(const uint8_t *input, size_t size)
{
    size_t announced = byte_at(input, size, 1) + 256 * byte_at(input, size, 2);
    size_t table = least(HEAD, size);
    size_t schedule = table + least(announced, size - table);
    struct order order = {
        .table = input + table,
        .length = schedule - table,
        .schedule = input + schedule,
        .bytes = least(SCHEDULE_LIMIT, size - schedule),
        .lent = least(VANGPEAR_THREADS, byte_at(input, size, 0)),
    };
    return order;
}

/* How many bytes an item has. */
static size_t item_size(const uint8_t *parameters, const uint8_t *item)
{
    switch (item[0]) {
    case LOCK:
    case MIRROR:
        return 2;
    case CALL:
        return 2u + parameters[item[1]];
    default:
        return 1;
    }
}

/* Whether an item opens a block; OTHER does not, as it closes one too. */
static bool opens(uint8_t code)
{
    return code == LOCK || code == FORK || code == CHOICE;
}

/* The offset behind the body that begins at `at`: its last END closes the body itself. */
static size_t behind_body(const struct parts *parts, size_t at)
{
    size_t open = 1;
    while (open > 0) {
        const uint8_t *item = parts->section + at;
        if (opens(item[0])) open++;
        if (item[0] == END) open--;
        at += item_size(parts->parameters, item);
    }
    return at;
}

/* Finds the parts of an accepted table, in one pass over its bodies. */
static void find_parts(struct parts *parts, const uint8_t *table)
{
    size_t at = 0;
    parts->routines = table[0];
    parts->parameters = table + 1;
    parts->section = parts->parameters + parts->routines + 2;
    for (size_t routine = 0; routine < parts->routines; routine++) {
        parts->starts[routine] = at;
        at = behind_body(parts, at);
    }
}

/* The routine whose body has this offset in it. */
static size_t routine_of(const struct parts *parts, size_t offset)
{
    size_t routine = 0;
    while (routine + 1 < parts->routines && parts->starts[routine + 1] <= offset) routine++;
    return routine;
}

/* How many times a thread holds a lock. */
static size_t times_held(const struct vangpear_thread *thread, size_t lock)
{
    size_t times = 0;
    if (thread->ended) return 0;
    for (size_t d = 0; d < thread->depth; d++) times += thread->kinds[d] == lock;
    return times;
}

/* Whether a thread other than this one holds a lock. */
static bool held_elsewhere(const struct threads *threads, size_t number, size_t lock)
{
    for (size_t other = 0; other < threads->number; other++)
        if (other != number && times_held(&threads->records[other], lock) > 0) return true;
    return false;
}

/* These print lines, and give whether that could be done. */
static bool print_place(const struct parts *parts, const struct vangpear_thread *thread, size_t number)
{
    if (thread->ended) return printf("thread %zu ended\n", number) > 0;
    return printf("thread %zu at %zu %zu\n", number, routine_of(parts, thread->at), thread->at) > 0;
}

static bool print_holds(const struct vangpear_thread *thread, size_t number)
{
    for (size_t lock = 0; lock < VANGPEAR_LOCKS; lock++) {
        size_t times = times_held(thread, lock);
        if (times > 0 && printf("holds %zu %zu %zu\n", number, lock, times) < 0) return false;
    }
    return true;
}

static bool print_wait(const struct parts *parts, const struct threads *threads, size_t number)
{
    const struct vangpear_thread *thread = &threads->records[number];
    if (thread->ended || parts->section[thread->at] != LOCK) return true;
    size_t lock = thread->names[VANGPEAR_NAME(thread->depth, parts->section[thread->at + 1])];
    return !held_elsewhere(threads, number, lock) || printf("waits %zu %zu\n", number, lock) > 0;
}

static bool print_threads(const struct parts *parts, const struct threads *threads)
{
    for (size_t number = 0; number < threads->number; number++) {
        const struct vangpear_thread *thread = &threads->records[number];
        if (!print_place(parts, thread, number)) return false;
        if (!print_holds(thread, number)) return false;
        if (!print_wait(parts, threads, number)) return false;
    }
    return true;
}

static bool print_answer(const struct vangpear_report *report)
{
    switch (report->answer) {
    case VANGPEAR_ENDED:
        return printf("ended %zu\n", report->read) > 0;
    case VANGPEAR_STUCK:
        return printf("stuck %zu\n", report->read) > 0;
    case VANGPEAR_OPEN:
        return printf("open %zu\n", report->read) > 0;
    default:
        return printf("refused %u %zu\n", (unsigned)report->answer, report->read) > 0;
    }
}

/* The locks and the threads, if any was started; if so, the table was accepted. */
static bool print_state(const uint8_t *table, size_t locks, const struct threads *threads)
{
    struct parts parts;
    if (threads->number == 0) return true;
    find_parts(&parts, table);
    return printf("locks %zu\n", locks) > 0 && print_threads(&parts, threads);
}

/* The exit status of an answer. */
static int status(const struct vangpear_report *report)
{
    switch (report->answer) {
    case VANGPEAR_ENDED:
    case VANGPEAR_OPEN:
        return GOING;
    case VANGPEAR_STUCK:
        return STUCK;
    default:
        return REFUSED;
    }
}

/* Runs what is ordered, prints how it came out, and gives the exit status. */
static int run(const struct order *order)
{
    static struct vangpear_thread records[VANGPEAR_THREADS];
    struct vangpear_report report =
        vangpear_run(order->table, order->length, order->schedule, order->bytes, records, order->lent);
    struct threads threads = {records, report.threads};
    errno = 0;
    bool written = print_answer(&report) && print_state(order->table, report.locks, &threads) && fflush(stdout) == 0;
    return written ? status(&report) : trouble("standard output", "it cannot be written");
}

int main(void)
{
    static uint8_t input[HEAD + TABLE_LIMIT + SCHEDULE_LIMIT];
    static char output[BUFSIZ];
    setvbuf(stdin, NULL, _IONBF, 0); /* it is read at once, and no buffer is taken from the heap */
    setvbuf(stdout, output, _IOFBF, sizeof output);
#ifdef SIGPIPE
    signal(SIGPIPE, SIG_IGN); /* so that a pipe that nobody reads is trouble like any other */
#endif
    errno = 0;
    size_t size = fread(input, 1, sizeof input, stdin);
    if (ferror(stdin)) return trouble("standard input", "it cannot be read");
    struct order order = take_apart(input, size);
    return run(&order);
}
