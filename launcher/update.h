/* Vangpear: the model of a handler table, brought up to date where one of its routines is replaced.
 * C11, usable from C++, also beside vangpear.h, runner.h and writer.h. docs/FORMAT.md has the format of a table, the
 * rules, what the call does (One routine replaced), and all the numbers below.
 *
 * Link with the archive that `tools/archive update` writes, target/staticlib/libupdate.a; libanalysis.a, whose header
 * vangpear.h has the layout of a model, librunner.a and libwriter.a may be in the same program. The call keeps no
 * state, takes no heap, writes nothing but the model, and is proved to end for every input. It uses less than 11 KiB of
 * stack (5,860 bytes measured): have 16 KiB free. Two calls may run at the same time on different model buffers. What
 * each refusal's number means is in refusals.h. */
#ifndef VANGPEAR_UPDATE_H
#define VANGPEAR_UPDATE_H

#include <stddef.h>
#include <stdint.h>

#ifdef __cplusplus
extern "C" {
#endif

/* What the call gives where the model is brought up to date. It is no verdict: vangpear_analyse gives one. */
#define VANGPEAR_DONE 0u

/* And its refusals besides 1 to 15: the tables differ in more than that routine's body and the length of the section
 * that it is in, or there is no such routine; the model is not well formed. */
#define VANGPEAR_OTHER_TABLE 18u
#define VANGPEAR_BAD_MODEL 19u

/* Brings the model of a table, the `size` bytes at `model`, up to date where the body of the routine with the number
 * `routine` is replaced: the `old_length` bytes at `old_table` are the table before, and the `new_length` bytes at
 * `new_table` the table after. All of them may be of any number and content. A pointer may be null only where its
 * number is 0. The two tables may overlap, or be the same bytes; neither may overlap `model`.
 *
 * Gives VANGPEAR_DONE or a refusal's number. The refusals are tried in this order: 1 to 14 for the old table; 1 to 14
 * for the new one; 15 where `size` is less than 65 bytes for each routine of the old table; VANGPEAR_OTHER_TABLE, also
 * where the parameter count of a routine differs, be it that of this one; VANGPEAR_BAD_MODEL. A model is well formed
 * where in each row the last byte is 0 or 1, and each cell is at most 7, and 0 for a pair that no row has: one of equal
 * names, with 0 as its second name, or with a name above the routine's parameter count. A refusal leaves every byte of
 * the buffer as it was.
 *
 * Otherwise the row of the routine may change, and those of the routines from which calls lead to it. They are the
 * least rows that the rules give for the new table, with all other rows taken as given; what they were before does not
 * matter. All other rows are as they were, and so are the bytes behind the rows, which are not looked at. If the model
 * was the one that vangpear_analyse writes for the old table, it is now the one that it writes for the new table.
 *
 * Both tables are checked and compared, and all rows looked at; the work besides goes with the rows that may change. */
uint32_t vangpear_update(const uint8_t *old_table, size_t old_length, const uint8_t *new_table, size_t new_length,
                         uint64_t routine, uint8_t *model, size_t size);

#ifdef __cplusplus
}
#endif

#endif
