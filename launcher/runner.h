/* Vangpear: where a handler table gets to, run turn by turn under a schedule.
 * C11, usable from C++, also beside vangpear.h. docs/FORMAT.md has the format of a table, the run, the bytes of a
 * schedule (Running a schedule), and all the numbers below.
 *
 * Link with the archive that `tools/archive runner` writes, target/staticlib/librunner.a; libanalysis.a, libupdate.a
 * and libwriter.a may be in the same program. All are for x86-64 Linux, and so is the layout of the structs. The call
 * keeps no state, takes no heap, writes nothing but what is said here, and is proved to end for every input. It uses
 * less than 68 KiB of stack (42,500 bytes measured), and 4 KiB more where the dynamic linker binds memcpy or memset
 * in it: have 80 KiB free. Two calls may run at the same time on different records. */
#ifndef VANGPEAR_RUNNER_H
#define VANGPEAR_RUNNER_H

#include <stdbool.h>
#include <stddef.h>
#include <stdint.h>

#ifdef __cplusplus
extern "C" {
#endif

/* The most that a run can have: threads, thread 0 among them; locks, whoever made them; open blocks and calls of one
 * thread. And how many names a routine has at most, name 0 among them. */
#define VANGPEAR_THREADS 16u
#define VANGPEAR_LOCKS 64u
#define VANGPEAR_FRAMES 64u
#define VANGPEAR_NAMES 16u

/* What a run answers besides 1 to 14, the refusals of its table: every thread has ended; some have not, and each of
 * those waits; the schedule is at its end, and some thread can go on. */
#define VANGPEAR_ENDED 0u
#define VANGPEAR_STUCK 65536u
#define VANGPEAR_OPEN 65537u

/* And the refusals of a run: the next byte names a thread that was not started; the next byte is of a thread whose step
 * is beyond a limit, or no record is lent. refusals.h has all refusals in words. */
#define VANGPEAR_UNSTARTED 16u
#define VANGPEAR_BEYOND 17u

/* What `kinds` has for an alternative of a choice, and for a call. */
#define VANGPEAR_ALTERNATIVE 64u
#define VANGPEAR_CALLED 65u

/* The index in `names` of name x at level d. */
#define VANGPEAR_NAME(d, x) (VANGPEAR_NAMES * (d) + (x))

/* The record of one thread, 1,640 bytes. What the thread has open, LOCK blocks, alternatives and calls, is numbered
 * from 0, the outermost first; the body or fork's block that it began with is not among it. Level 0 is within what it
 * began with, and level d + 1 within what it has open as number d, so that its next item is at level `depth`. */
struct vangpear_thread {
    /* The offset in the body section of its next item. */
    size_t at;
    /* How many blocks, alternatives and calls it has open; a forked thread at most VANGPEAR_FRAMES - 1. */
    size_t depth;
    /* Whether it has ended; if so, nothing else in the record means anything. */
    bool ended;
    /* For each d below `depth`, what it has open as number d: of a LOCK block the lock, which is below VANGPEAR_LOCKS
     * (one that is there twice is held twice), VANGPEAR_ALTERNATIVE, or VANGPEAR_CALLED. */
    uint8_t kinds[VANGPEAR_FRAMES];
    /* For each d below `depth` where `kinds` has VANGPEAR_CALLED, the offset behind the CALL: there the thread goes on
     * once the call is closed. */
    size_t goes[VANGPEAR_FRAMES];
    /* For each d up to `depth` and each name x in scope at level d, the lock that x stands for, at VANGPEAR_NAME(d, x).
     * Below `depth` these are the names to go on with once number d is closed. */
    uint8_t names[(VANGPEAR_FRAMES + 1u) * VANGPEAR_NAMES];
};

/* What a run reports: the number of the answer, how many bytes of the schedule were read, how many threads were started
 * and how many locks made. Both are numbered from 0 in the order in which they came to be. For a refusal of the table
 * the last three are 0. */
struct vangpear_report {
    uint64_t answer;
    size_t read;
    size_t threads;
    size_t locks;
};

/* Runs the `length` bytes at `table` under the `bytes` bytes at `schedule`, either of which may be of any number and
 * content, with the `lent` records at `records`, one for each thread that there can be; those behind the first
 * VANGPEAR_THREADS are not used. A pointer may be null only where its number is 0. `table`, `schedule` and `records`
 * must not overlap.
 *
 * What the records have before the call does not matter, but `ended` has to be false or true, as in records that are
 * all zero. For each t below the `threads` of the report, record t shows how thread t stands after the call, and what
 * is not said to mean something above may be anything. All other records are as they were, so every one of them after a
 * refusal of the table. VANGPEAR_UNSTARTED and VANGPEAR_BEYOND leave the threads as they stand before the next byte,
 * which does not count as read. */
struct vangpear_report vangpear_run(const uint8_t *table, size_t length, const uint8_t *schedule, size_t bytes,
                                    struct vangpear_thread *records, size_t lent);

#ifdef __cplusplus
}
#endif

#endif
