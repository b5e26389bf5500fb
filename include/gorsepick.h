/* Gorsepick for C: a transaction engine for up to eight transactions over pages of 32-bit words.
 *
 * Link it with the static library that tools/build-linked writes, target/staticlib/liblinked.a. Every function here is
 * proved: what its comment promises is its contract in crates/linked/src, for every engine, every memory and every number
 * that a host can pass. docs/LINKING.md says how to build, and what the rules are is in docs/ENGINE.md.
 *
 * What the proof takes on trust from a host in C, since no compiler checks it:
 *   - gorsepick_fresh is given a handle that leads to room for an engine;
 *   - the handle that any other function is given leads to memory in which gorsepick_fresh made an engine, or to a whole copy
 *     of such memory, made between calls, and nothing but these functions has written to it since. What it holds is of no
 *     account to a host, and a host that scribbles over it has no promise left;
 *   - every pointer, `at`, `word` and `missing` among them, is not null and leads to what its type says, writable where it
 *     is not const; one with a length beside it leads to that many elements, and is not null even where the length is 0;
 *   - the memory behind two pointers of one call does not overlap, and during a call nothing else uses any of it: no other
 *     thread, signal handler, interrupt or device; and no call is left by longjmp;
 *   - pointers are aligned as C aligns their types, and a bool is true or false.
 * Nothing else is asked. Any slot number, allowance, page, script and store words are fine: what is not fit is refused, and
 * a refused call leaves the engine and the words as they were.
 *
 * No function keeps a pointer, allocates, prints, or reads a clock.
 */
#ifndef GORSEPICK_H
#define GORSEPICK_H

#include <stdbool.h>
#include <stddef.h>
#include <stdint.h>

#ifdef __cplusplus
extern "C" {
#endif

/* Room for an engine: eight slots with their scripts and shadows. Its contents are plain data, with no pointers among them:
 * copy it, keep many, put it where you like. */
#define GORSEPICK_ENGINE_WORDS 2514
typedef struct gorsepick_memory {
    uint64_t words[GORSEPICK_ENGINE_WORDS];
} gorsepick_memory;

/* A handle: where an engine lies. No function changes `at`. Copying a handle copies no engine; any handle on an engine serves,
 * as long as no two calls on it run at once. */
typedef struct gorsepick_engine {
    gorsepick_memory *at;
} gorsepick_engine;

/* What a call answers. `refusal` is 0 where the call was accepted, else the number of the refusal. `count` says how many of
 * `values` count; those past it are 0. */
typedef struct gorsepick_answer {
    uint32_t refusal;
    uint32_t count;
    size_t values[3];
} gorsepick_answer;

/* Refusal numbers, each with its values. Checks go down this list, and the first that fits is given. */
enum {
    GORSEPICK_ACCEPTED = 0,
    GORSEPICK_NO_SLOT = 1,       /* a slot number above 7: the first such number */
    GORSEPICK_BAD_ALLOWANCE = 2, /* an allowance of 0 or above 8: it */
    GORSEPICK_SLOTS_OPEN = 3,    /* set allowance while a slot is open: the lowest such */
    GORSEPICK_ALREADY_OPEN = 4,  /* begin on an open slot: the slot */
    GORSEPICK_UNFIT = 5,         /* a script with no bytes, a size not 1 to 16, or a length not 1 + 5n: the length */
    GORSEPICK_UNDEFINED = 6,     /* a script with a step that is not defined: the first such step */
    GORSEPICK_NOT_OPEN = 7,      /* a slot that is not open: the slot */
    GORSEPICK_NO_SHADOW = 8,     /* no such shadow: the slot that it would be for */
    GORSEPICK_OFF_PAGES = 9,     /* a turn would read from the store, or write, a page that it does not have: the slot, the step, the page */
    GORSEPICK_NOT_ENDED = 10,    /* commit before the end: the leading shadow's step */
    GORSEPICK_UNWRITABLE = 11    /* commit with a page not below the size: the slot, the first such page */
};

/* What a turn answers as its one value. */
enum { GORSEPICK_MOVED = 0, GORSEPICK_ENDED = 1, GORSEPICK_WAITING = 2 };

/* What stand answers as its second value: what the shadow's next turn would find. */
enum { GORSEPICK_AT_END = 0, GORSEPICK_HALTED = 1, GORSEPICK_READY = 2 };

/* The two stores, for `log`, and the two arithmetics, for `flags`. */
#define GORSEPICK_FLAT false
#define GORSEPICK_LOG true
#define GORSEPICK_COUNTERS false
#define GORSEPICK_FLAGS true

/* The size of an engine in bytes, as the library has it. Call it before any other function: where it is not
 * sizeof(gorsepick_memory), header and library are not of one version. */
size_t gorsepick_engine_size(void);

/* Makes a fresh engine, with allowance 2 and all slots closed, in the memory that the handle leads to, whatever lay there:
 *     static gorsepick_memory memory;
 *     gorsepick_engine engine = {&memory};
 *     gorsepick_fresh(engine); */
void gorsepick_fresh(gorsepick_engine engine);

/* The five calls. Each does to the engine and the pages exactly what docs/ENGINE.md says, and answers exactly that. */

/* Sets the allowance, 1 to 8, while no slot is open. Refused: 2, 3. Answers no value. */
gorsepick_answer gorsepick_set_allowance(gorsepick_engine *engine, uint32_t allowance);

/* Opens a slot with the script that the bytes say; the bytes may go then. Refused: 1, 4, 5, 6. Answers no value. */
gorsepick_answer gorsepick_begin(gorsepick_engine *engine, uint32_t slot, const uint8_t *script, size_t length);

/* One step of the slot's shadow for `other`, or of its leading shadow where both are the same. Refused: 1, 7, 8, 9. Answers
 * GORSEPICK_MOVED, GORSEPICK_ENDED or GORSEPICK_WAITING. The words stay as they were. */
gorsepick_answer gorsepick_turn(gorsepick_engine *engine, uint32_t slot, uint32_t other, uint32_t *words, size_t length,
                                bool log, bool flags);

/* Puts the list of the slot's leading shadow into the store, in its order, and closes the slot. Refused: 1, 7, 10, 11.
 * Answers register 0 and the number of pages put. */
gorsepick_answer gorsepick_commit(gorsepick_engine *engine, uint32_t slot, uint32_t *words, size_t length, bool log);

/* Closes the slot. Refused: 1, 7. Answers no value. */
gorsepick_answer gorsepick_abort(gorsepick_engine *engine, uint32_t slot);

/* The two questions. They change nothing, and want the engine to themselves as the calls do. */

/* Answers the shadow's step, and what its next turn would find: GORSEPICK_AT_END, GORSEPICK_HALTED or GORSEPICK_READY.
 * Refused: 1, 7, 8. */
gorsepick_answer gorsepick_stand(gorsepick_engine *engine, uint32_t slot, uint32_t other);

/* Answers the step and the page of the shadow's recorded read with this index, counted from 0, or no value where there is
 * none. Refused: 1, 7, 8. */
gorsepick_answer gorsepick_read_entry(gorsepick_engine *engine, uint32_t slot, uint32_t other, size_t index);

/* The pages of a store in host memory. A flat store has the words as its pages; over more than 4,096 its size is 0. A log
 * store has the layout of docs/PAGES.md; over words that are not sound its size is 0. */

/* The number of pages. The words stay as they were. */
uint32_t gorsepick_size(uint32_t *words, size_t length, bool log);

/* Reads a page into *word and says true; *missing stays. Where the page is not below the size, *word stays, *missing becomes
 * the page that is not there, and it says false. The words stay as they were. `word` and `missing` lead to two places. */
bool gorsepick_read(uint32_t *words, size_t length, bool log, uint32_t page, uint32_t *word, uint32_t *missing);

/* Puts a word to a page and says true; *missing stays. Where the page is not below the size, the words stay, *missing becomes
 * the page that is not there, and it says false. */
bool gorsepick_put(uint32_t *words, size_t length, bool log, uint32_t page, uint32_t word, uint32_t *missing);

#ifdef __cplusplus
}
#endif

#endif
