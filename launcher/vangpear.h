/* Vangpear: whether a handler table is accepted, whether its threads can wait for each other's locks, and in how many
 * rounds that is worked out.
 * C11, usable from C++. docs/FORMAT.md has the format of a table, the rules, and all the numbers below.
 *
 * Link with the archive that `tools/archive analysis` writes, target/staticlib/libanalysis.a. The calls keep no state,
 * take no memory of their own, write nothing but what is said here, and are proved to end for every input. They use
 * less than 13 KiB of stack (11,748 bytes measured): have 20 KiB free. Two calls may run at the same time on different
 * model buffers. What each refusal's number means is in refusals.h. */
#ifndef VANGPEAR_H
#define VANGPEAR_H

#include <stddef.h>
#include <stdint.h>

#ifdef __cplusplus
extern "C" {
#endif

/* How many bytes of the model buffer each routine takes, and how many suffice for every table (64 routines). */
#define VANGPEAR_ROW 65u
#define VANGPEAR_MODEL (64u * VANGPEAR_ROW)

/* Row r of the model is the VANGPEAR_ROW bytes from VANGPEAR_ROW * r on: 64 cells and a last byte. Cell 8 * a + b, for
 * a and b from 0 to 7, is the sum of the labels under which routine r has name a held while name b is wanted, and 0
 * where there is none. Name 0 is the lock that the thread took last before the call and still holds (a LOCK on a name
 * whose root its thread has locked around it in the same body does not count as taking: docs/FORMAT.md), the others are
 * the routine's parameters. The last byte is 1 where the pairs of the routine's body have a ring, and otherwise 0. These
 * two give the index in the model buffer. */
#define VANGPEAR_CELL(routine, a, b) (VANGPEAR_ROW * (routine) + 8u * (a) + (b))
#define VANGPEAR_LAST(routine) (VANGPEAR_ROW * (routine) + 64u)

/* The labels: the thread that runs the routine, one unnamed thread, two or more threads. */
#define VANGPEAR_OWN 1u
#define VANGPEAR_UNKNOWN 2u
#define VANGPEAR_SEVERAL 4u

/* What vangpear_check gives for an accepted table is VANGPEAR_ROUTINE * routines + items. */
#define VANGPEAR_ROUTINE 65536u

/* What vangpear_analyse gives for a ring is VANGPEAR_RING + 1024 * routine + 32 * name: these take it apart. The name
 * is that of a parameter or of a NEW, never that of a MIRROR. */
#define VANGPEAR_RING 65536u
#define VANGPEAR_RING_ROUTINE(answer) (((answer) - VANGPEAR_RING) / 1024u)
#define VANGPEAR_RING_NAME(answer) (((answer) - VANGPEAR_RING) % 1024u / 32u)

/* What vangpear_rounds gives for an accepted table is VANGPEAR_ROUNDS + the number of rounds: this takes it apart. (The
 * number by itself can be 1 to 15, which are refusals.) */
#define VANGPEAR_ROUNDS 65536u
#define VANGPEAR_ROUNDS_NUMBER(answer) ((answer) - VANGPEAR_ROUNDS)

/* A table of so many routines needs no more rounds than this; and where no calls lead from a routine back to it, no
 * more than one for each routine and one besides. */
#define VANGPEAR_MOST_ROUNDS(routines) (148u * (routines) + 1u)

/* Checks the `length` bytes at `table`, which may be of any number and content; `table` may be null only where `length`
 * is 0. Gives the refusal's number, 1 to 14, or VANGPEAR_ROUTINE * routines + items. Writes nothing. */
uint32_t vangpear_check(const uint8_t *table, size_t length);

/* Analyses the table as vangpear_check takes it. Gives 0 for clear, VANGPEAR_RING and more for a ring, or the refusal's
 * number: 1 to 14, or 15 where the `size` bytes at `model` are fewer than VANGPEAR_ROW for each routine. A refusal
 * leaves the buffer as it was; otherwise its first VANGPEAR_ROW * routines bytes are the rows of the model, and those
 * after them are as they were. `table` and `model` must not overlap. The share that a listing has is not in the number:
 * a caller who wants it has to find the routines that calls reach, in the table, and to count those of them whose last
 * byte in the model is 0 (docs/FORMAT.md). */
uint32_t vangpear_analyse(const uint8_t *table, size_t length, uint8_t *model, size_t size);

/* Does all that vangpear_analyse does, with the same refusals and the same bytes in the buffer afterwards, and gives
 * the refusal's number, 1 to 15, or VANGPEAR_ROUNDS + the number of rounds. In a round each row is worked out from what
 * the rows were before that round, at first all zero. When a round leaves all of them as they were the model is there;
 * that round counts, too. The number is no verdict: a caller who wants both makes both calls. */
uint32_t vangpear_rounds(const uint8_t *table, size_t length, uint8_t *model, size_t size);

#ifdef __cplusplus
}
#endif

#endif
