/* Vangpear: the canonical table of a handler table, the one way to write it.
 * C11, usable from C++, also beside vangpear.h, update.h and runner.h. docs/FORMAT.md has the format of a table, what
 * its canonical table is (One way to write a table), and all the numbers below.
 *
 * Link with the archive that `tools/archive writer` writes, target/staticlib/libwriter.a; libanalysis.a, libupdate.a
 * and librunner.a may be in the same program. The call keeps no state, takes no heap, writes nothing but the canonical
 * table, and is proved to end for every input. It uses less than 8 KiB of stack (6,900 bytes measured): have 12 KiB
 * free. Two calls may run at the same time on different output buffers. What each refusal's number means is in
 * refusals.h. */
#ifndef VANGPEAR_WRITER_H
#define VANGPEAR_WRITER_H

#include <stddef.h>
#include <stdint.h>

#ifdef __cplusplus
extern "C" {
#endif

/* How many bytes the longest table has. No canonical table is longer, so this is enough for each of them; and so are as
 * many bytes as the table has. */
#define VANGPEAR_LONGEST 4163u

/* What the call gives where the canonical table is written is VANGPEAR_CANONICAL + its length: this takes it apart. (A
 * length by itself can be 5, which is a refusal's number.) */
#define VANGPEAR_CANONICAL 65536u
#define VANGPEAR_CANONICAL_LENGTH(answer) ((answer) - VANGPEAR_CANONICAL)

/* And its refusal besides 1 to 14: the canonical table has no room in the buffer. */
#define VANGPEAR_NO_ROOM 20u

/* Writes the canonical table of the `length` bytes at `table` to the beginning of the `size` bytes at `out`. Both may
 * be of any number and content. A pointer may be null only where its number is 0. `table` and `out` must not overlap.
 *
 * Gives the refusal's number, 1 to 14, where the table is refused; then VANGPEAR_NO_ROOM where `size` is less than the
 * length of the canonical table; and otherwise VANGPEAR_CANONICAL + that length. A refusal leaves every byte of the
 * buffer as it was; otherwise the bytes behind the canonical table are as they were.
 *
 * In the canonical table the routines that calls reach from routine 0, and no others, are numbered as they are first
 * met where the bodies are read in the order of the new numbers, routine 0 first. For a mirror stands the parameter or
 * the local of a NEW that it leads back to, MIRROR items are left out, and locals are numbered anew, above the
 * parameters, as they are written. Two tables have the same canonical table exactly where they differ only in the order
 * of the routines after 0, in routines that calls do not reach and in mirrors; a canonical table is its own. It is
 * clear exactly where the table is, and each of its routines has the row of the model that it had there. A ring may
 * have other numbers than there, as routines and names have. */
uint32_t vangpear_canonical(const uint8_t *table, size_t length, uint8_t *out, size_t size);

#ifdef __cplusplus
}
#endif

#endif
