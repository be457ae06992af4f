/* The ground of each refusal in a few words, by its number; docs/FORMAT.md has each in full. 16 and 17 are of running a
 * schedule alone, 18 and 19 of bringing a model up to date alone, 20 of writing a canonical table alone. ./vangpear
 * reads these lines too. C11, usable from C++. */
#ifndef VANGPEAR_REFUSALS_H
#define VANGPEAR_REFUSALS_H

static const char *const vangpear_refusals[] = {
    /* 0 */ "no refusal",
    /* 1 */ "there is not a single byte",
    /* 2 */ "a table has 1 to 64 routines, and its first byte says otherwise",
    /* 3 */ "the table is cut off in its head: parameter counts or the length of the bodies are missing",
    /* 4 */ "a routine is to have more than 7 parameters, or routine 0 is to have any",
    /* 5 */ "the head announces more than 4,096 bytes of bodies",
    /* 6 */ "the bodies are not as long as the head announces",
    /* 7 */ "the bytes end inside a body, or a routine has none",
    /* 8 */ "where an item begins there is a byte that is no code (00 to 07)",
    /* 9 */ "a choice is put together wrongly: OTHER out of place, or END where OTHER is due",
    /* 10 */ "more than 16 blocks are open, one in another",
    /* 11 */ "a routine has more than 8 NEW and MIRROR together, or more than 8 FORK",
    /* 12 */ "a CALL is to run a routine that the table does not have",
    /* 13 */ "a LOCK, CALL or MIRROR lacks a name, or uses one that means no lock at that place",
    /* 14 */ "there are bytes left over behind the last body",
    /* 15 */ "the model buffer is too short: it takes 65 bytes for each routine",
    /* 16 */ "a byte of the schedule names a thread that was not started",
    /* 17 */ "there is no record for a thread (at most 16), no room for a lock (64), or for an open block or call (64)",
    /* 18 */ "the tables differ in more than the body of that routine, or they have no such routine",
    /* 19 */ "the model is not well formed: a byte is too large, or a cell is not 0 where there can be no pair",
    /* 20 */ "the output buffer is too short for the canonical table: as many bytes as the table has are enough",
};

#endif
