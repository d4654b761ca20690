/*
 * The checker of closed tableaux for region logic, as C sees it: one call, from a file's bytes to its reply.
 *
 * The library is target/staticlib/libchecker.a, which `./libraries checker` makes, for x86-64 Linux.
 *
 * A file has at most 60,000 bytes. Each line has six fields parted by five commas, no quoting, ended by one LF. Field 1 is one of
 * the letters T, A, C, S. Field 2 is two or three small letters. Fields 3 to 6 are numbers of one to five digits, with no leading
 * zero unless the number is 0. T lines come first, then A, then C, then S; any kind may be missing. A field that the word doesn't
 * use holds 0. A C line holds a literal as an A line does, and then the number of its clause; of a clause at least one literal is
 * assumed. The lines of a clause stand together, and clauses are numbered from 1 without gaps.
 */
#ifndef TABCHECK_H
#define TABCHECK_H

#include <stddef.h>
#include <stdint.h>

#ifdef __cplusplus
extern "C" {
#endif

/*
 * The reply buffer: seven numbers of four bytes each, low byte first. It had 24 bytes before there was a place: a host that still
 * passes 24 gets TABCHECK_BUFFER_LENGTH for every file, with nothing written.
 */
#define TABCHECK_REPLY_BYTES 28

/* The seven numbers, in the reply's order: number i is bytes 4 * i to 4 * i + 3 of the buffer. */
enum tabcheck_field {
    TABCHECK_REFUSAL = 0,  /* refusal number; 0 after a yes */
    TABCHECK_LINE = 1,     /* line of the first bad line, from 1; 0 after a yes */
    TABCHECK_T_LINES = 2,  /* T lines; 0 after a no */
    TABCHECK_ASSUMED = 3,  /* A lines plus clauses; 0 after a no */
    TABCHECK_S_LINES = 4,  /* S lines; 0 after a no */
    TABCHECK_CLOSINGS = 5, /* closings (cls, emp and bck lines); 0 after a no */
    TABCHECK_PLACE = 6     /* place where w is already used, after TABCHECK_NOT_FRESH; 0 after any other number and after a yes */
};

/*
 * The place is the first on the branch, from 1, whose literal mentions w: as one of its sides or inside a larger term. The branch
 * is the one that the refused line meets, without what closed or waiting alternatives hold. With TABCHECK_NOT_FRESH the place is 0
 * where w is no rfv, even if it stands on the branch, and where w is in a clause only.
 */

/* The name of number 3 before there were clauses. */
#define TABCHECK_A_LINES TABCHECK_ASSUMED

/* The refusal numbers; 19 and 20 are those of tabeval.h. Checks on a line run in their order. */
enum tabcheck_refusal {
    TABCHECK_YES = 0,            /* not refused: the file is accepted */
    TABCHECK_TOO_LONG = 1,       /* over 60,000 bytes; line 0, before any line */
    TABCHECK_BAD_SHAPE = 2,      /* line not shaped as above, or no LF */
    TABCHECK_LETTER_ORDER = 3,   /* T after A, C or S; A after C or S; C after S */
    TABCHECK_UNKNOWN_WORD = 4,   /* word not known for this letter */
    TABCHECK_TREE_CLOSED = 5,    /* S line when the tree is closed */
    TABCHECK_UNUSED_FIELD = 6,   /* unused field not 0 */
    TABCHECK_TOO_MANY_TERMS = 7, /* 601st term */
    TABCHECK_NO_SUCH_TERM = 8,   /* a term field names no term made so far, or a name is 0 */
    TABCHECK_WRONG_SORT = 9,     /* wrong sort in T, A, C, cut or ler */
    TABCHECK_TERM_REPEATED = 10, /* term already made */
    TABCHECK_NO_SUCH_PLACE = 11, /* a place used is not on the branch, or cla on no clause */
    TABCHECK_NEED_NOT_MET = 12,  /* what the rule needs isn't so, freshness apart */
    TABCHECK_NOT_FRESH = 13,     /* w not fresh */
    TABCHECK_TERM_NOT_MADE = 14, /* a term to be added isn't in the table */
    TABCHECK_BRANCH_FULL = 15,   /* an A line or any alternative would pass 1,000 places */
    TABCHECK_WAITING_FULL = 16,  /* over 200 alternatives would wait */
    TABCHECK_BRANCH_OPEN = 17,   /* input ends with a branch open; line is last line plus 1 */
    TABCHECK_BUFFER_LENGTH = 18, /* reply buffer not 28 bytes; returned by the call, nothing written, before 1 */
    TABCHECK_BAD_CLAUSE = 21     /* clause number 0, or neither the last nor the next; a ninth literal in a clause; a 401st C line */
};

/*
 * Checks the file_len bytes at file and writes the reply into the buffer at reply. Returns the refusal number, 0 after a yes,
 * which is also the first of the seven numbers.
 *
 * After any number but TABCHECK_BUFFER_LENGTH all 28 bytes are written, whatever they held. TABCHECK_BUFFER_LENGTH is returned
 * where reply_len is not TABCHECK_REPLY_BYTES, whatever the file, and then the buffer stays as it was.
 *
 * The caller guarantees
 * - that neither pointer is null, not even where its length is 0;
 * - that file_len bytes at file can be read, and reply_len bytes at reply can be read and written;
 * - that the two do not overlap, and that nothing else changes them before the call returns;
 * - one MiB of stack.
 *
 * The call writes to the buffer only, keeps nothing for the next call, and returns on every input. Calls from several threads
 * at once, each with a buffer of its own, do not disturb each other.
 */
uint32_t tabcheck(const uint8_t *file, size_t file_len, uint8_t *reply, size_t reply_len);

#ifdef __cplusplus
}
#endif

#endif
