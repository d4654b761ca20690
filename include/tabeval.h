/*
 * The evaluator of assumptions, as C sees it: one call, from a checker file and a heap file to the first assumption that is false in
 * that heap.
 *
 * The library is target/staticlib/libevaluator.a, which `./libraries evaluator` makes, for x86-64 Linux.
 *
 * The checker file is that of tabcheck.h; its lines are read up to the first that begins S and a comma. A heap file has lines of the
 * same shape, with D as the only letter, and at most 60,000 bytes. `D,siz` comes first and gives references, fields, classes (1 to 64,
 * 16, 16), all counted from 0, reference 0 being nul. Then, in any order: alc reference; typ reference, class; dty field, class; sub
 * lower, upper; rfv, fnv, clv name, value; rgv name, member, already allocated; arv name, reference, field, value. What isn't said is
 * 0 or absent; a class is always under itself.
 */
#ifndef TABEVAL_H
#define TABEVAL_H

#include <stddef.h>
#include <stdint.h>

#include "tabcheck.h"

#ifdef __cplusplus
extern "C" {
#endif

/* The reply buffer: three numbers of four bytes each, low byte first. */
#define TABEVAL_REPLY_BYTES 12

/* The three numbers, in the reply's order: number i is bytes 4 * i to 4 * i + 3 of the buffer. */
enum tabeval_field {
    TABEVAL_REFUSAL = 0, /* refusal number; 0 without a refusal */
    TABEVAL_FILE = 1,    /* file that is refused: 1 checker, 2 heap; 0 without a refusal */
    TABEVAL_LINE = 2     /* line of the refusal; without one, of the first false A line, else the last of the first false clause, 0 where all hold */
};

/*
 * The refusal numbers beside those of tabcheck.h. Of these the call gives TABCHECK_BUFFER_LENGTH, where the buffer has not 12 bytes;
 * of the checker file TABCHECK_TOO_LONG to TABCHECK_UNKNOWN_WORD, TABCHECK_UNUSED_FIELD to TABCHECK_TERM_REPEATED,
 * TABCHECK_BRANCH_FULL and TABCHECK_BAD_CLAUSE; of the heap file TABCHECK_TOO_LONG, TABCHECK_BAD_SHAPE, TABCHECK_LETTER_ORDER (a
 * first line that isn't siz, none at all, with line 1, or a later siz), TABCHECK_UNKNOWN_WORD and TABCHECK_UNUSED_FIELD. The whole
 * checker file is checked first, then the lines of the heap file, each in the order of the numbers.
 */
enum tabeval_refusal {
    TABEVAL_NONE = 0,         /* not refused: the line says whether all assumptions hold */
    TABEVAL_BAD_FACT = 19,    /* D line out of its ranges, its subject given twice, a class put under itself, an allocated 0, or a member not yet allocated */
    TABEVAL_NOT_AN_ORDER = 20 /* the order of the classes isn't transitive and antisymmetric; line 0, after all lines */
};

/*
 * Tries the heap that the heap_len bytes at heap say against the A and C lines of the file_len bytes at file, and writes the reply
 * into the buffer at reply. A clause is false where none of its literals is true. Returns the refusal number, 0 without a refusal,
 * which is also the first of the three numbers.
 *
 * After any number but TABCHECK_BUFFER_LENGTH all 12 bytes are written, whatever they held. TABCHECK_BUFFER_LENGTH is returned where
 * reply_len is not TABEVAL_REPLY_BYTES, whatever the files, and then the buffer stays as it was.
 *
 * For a file that tabcheck accepts the three numbers are never 0, 0, 0.
 *
 * The caller guarantees
 * - that no pointer is null, not even where its length is 0;
 * - that file_len bytes at file and heap_len bytes at heap can be read, and reply_len bytes at reply can be read and written;
 * - that the buffer overlaps neither file, and that nothing else changes the three before the call returns;
 * - one MiB of stack.
 *
 * The call writes to the buffer only, keeps nothing for the next call, and returns on every input. Calls from several threads
 * at once, each with a buffer of its own, do not disturb each other.
 */
uint32_t tabeval(const uint8_t *file, size_t file_len, const uint8_t *heap, size_t heap_len, uint8_t *reply, size_t reply_len);

#ifdef __cplusplus
}
#endif

#endif
