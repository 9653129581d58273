/* Exact linear algebra modulo a prime for sparse matrices: the C functions of libspasm. For a caller that keeps to this page it is proved
   what the answers are, when each status comes but SPASM_NO_MEMORY, and what is written. How many entries an answer has at most, and what
   is said of memory and threads, is told and not proved.

   MATRICES. A matrix is passed as three arrays with an item for each entry: its row, its column and its value. Rows and columns count
   from 0, values are below the modulus, entries come in any order, and those at one place are added up. A pointer is never null, even if
   its length is 0, and arrays overlap nothing that is written.

   ANSWERS that are matrices are written to arrays of the caller, if these are long enough: the entries that aren't 0, row by row and by
   ascending columns. `needed` says how many there are, and `height` how many rows the answer has. If an array is shorter than that the
   status is SPASM_NO_ROOM, `needed` and `height` are told, and the arrays stay as they were. A second call with longer arrays computes
   the answer again, so pass as many places as an answer can have at most, where there is memory for them: it is told below.

   STATUSES. Each function returns one but the two that tell of the library. With SPASM_BAD_INPUT and SPASM_NO_MEMORY nothing is written.

   A MODULUS that isn't prime isn't refused: but for spasm_pivots the answer then means nothing. It has a possible size.

   MEMORY is taken from malloc while a function runs, and all of it is given back before the function returns: 12 bytes an entry and 8 a
   row for the matrix, what the elimination makes, and 16 an entry of the answer. Entries that stand row by row and by ascending columns,
   each at a place of its own and none of them 0, are copied in one pass; any others are sorted first, in 16 bytes an entry, and 36 for a
   moment.

   THREADS. A call works on the calling thread alone, and starts none. Several threads may call at once, with arrays of their own for what
   is written. No function may be called from a signal handler, or in the forked child of a process with threads. A call can't be
   interrupted. malloc has to be that of the C library, or one with its alignment. */
#ifndef SPASM_H
#define SPASM_H

#include <stddef.h>
#include <stdint.h>

#ifdef __cplusplus
extern "C" {
#endif

/* The statuses. Where the program `spasm` has an exit status of the meaning, it is the same number. */
enum {
    /* The call has answered. */
    SPASM_OK = 0,
    /* Of spasm_solve: there is no solution, and the answer is the row that refutes the system. */
    SPASM_REFUTED = 1,
    /* Of spasm_inverse: there is no inverse, and the answer is a null vector. */
    SPASM_SINGULAR = 1,
    /* The arrays have different lengths, a modulus, size, row, column or value is out of range, or the shape isn't one that is taken. */
    SPASM_BAD_INPUT = 3,
    /* Memory ran out. */
    SPASM_NO_MEMORY = 8,
    /* An array for the answer is too short. */
    SPASM_NO_ROOM = 10
};

/* A matrix. */
typedef struct spasm_matrix {
    /* The row of each entry, from 0, and how many entries there are. */
    const uint32_t *rows;
    size_t rows_length;
    /* The column of each, and the same number again. */
    const uint32_t *columns;
    size_t columns_length;
    /* The value of each, below the modulus, and the same number again. */
    const uint64_t *values;
    size_t values_length;
    /* How many rows and columns the matrix has, at most 2^31 each. */
    uint32_t height;
    uint32_t width;
    /* The modulus, from 2 to 2^48 - 1. */
    uint64_t modulus;
} spasm_matrix;

/* Room for an answer that is a matrix. The caller sets the pointers and lengths, and the call the rest. */
typedef struct spasm_room {
    /* For the row of each entry, from 0, and how many places there are. */
    uint32_t *rows;
    size_t rows_length;
    /* For the column of each. */
    uint32_t *columns;
    size_t columns_length;
    /* For the value of each. */
    uint64_t *values;
    size_t values_length;
    /* How many entries the answer has. */
    size_t needed;
    /* How many rows the answer has. */
    uint32_t height;
} spasm_room;

/* Room for places in a matrix. The caller sets the pointers and lengths, and the call the rest. */
typedef struct spasm_places {
    /* For the row of each, from 0, and how many places there are. */
    uint32_t *rows;
    size_t rows_length;
    /* For the column of each. */
    uint32_t *columns;
    size_t columns_length;
    /* How many there are. */
    size_t needed;
} spasm_places;

/* The library's version: the major one times 10000, the minor one times 100, and the patch. */
uint32_t spasm_version(void);

/* The processors that the library was compiled for: "x86-64-v3", which have AVX2, or "x86-64-v2". On any other the system may end the
   program at a call of another function, as an illegal instruction. c/build.sh makes this function, and it isn't proved. */
const char *spasm_processor(void);

/* The rank. It is the cheapest call: no coefficients are kept.
   Statuses: SPASM_OK, SPASM_BAD_INPUT, SPASM_NO_MEMORY. */
uint32_t spasm_rank(const spasm_matrix *matrix, uint32_t *rank);

/* The reduced row echelon form: as many rows as the rank, of the matrix's width. It has no more than r + r (width - r) entries, for the
   rank r.
   Statuses: SPASM_OK, SPASM_BAD_INPUT, SPASM_NO_MEMORY, SPASM_NO_ROOM. */
uint32_t spasm_rref(const spasm_matrix *matrix, spasm_room *form);

/* The basis of all x with A x = 0, in its reduced form: a row for each column in which no row of the echelon form leads, so width - r of
   them for the rank r, and no more than (width - r) (r + 1) entries.
   Statuses: SPASM_OK, SPASM_BAD_INPUT, SPASM_NO_MEMORY, SPASM_NO_ROOM. */
uint32_t spasm_kernel(const spasm_matrix *matrix, spasm_room *basis);

/* The basis of all y with y A = 0, the kernel basis of the transposed matrix: height - r rows as wide as A is high, and no more than
   (height - r) (r + 1) entries.
   Statuses: SPASM_OK, SPASM_BAD_INPUT, SPASM_NO_MEMORY, SPASM_NO_ROOM. */
uint32_t spasm_left_kernel(const spasm_matrix *matrix, spasm_room *basis);

/* What there is to say of A x = b. The right side is a matrix of one column, as high as A and with its modulus; A has fewer than 2^31 rows
   and columns. With SPASM_OK the answer is a column x with A x = b, as high as A is wide: of all solutions the one that is 0 at each
   column where a row of the kernel basis ends. With SPASM_REFUTED there is none, and the answer is a row y with y A = 0 and y b = 1. The
   one has no more than r entries, for the rank r of A, and the other no more than r + 1.
   Statuses: SPASM_OK, SPASM_REFUTED, SPASM_BAD_INPUT, SPASM_NO_MEMORY, SPASM_NO_ROOM. */
uint32_t spasm_solve(const spasm_matrix *matrix, const spasm_matrix *side, spasm_room *answer);

/* The inverse of a square matrix of at most 2^30 rows. With SPASM_OK the answer is the inverse, with SPASM_SINGULAR there is none, and the
   answer is a row v that isn't zero, with A v = 0. It has no more than n x n entries.
   Statuses: SPASM_OK, SPASM_SINGULAR, SPASM_BAD_INPUT, SPASM_NO_MEMORY, SPASM_NO_ROOM. */
uint32_t spasm_inverse(const spasm_matrix *matrix, spasm_room *answer);

/* Structural pivots: places of entries, in an order in which they are triangular, to which none can be added; the leftmost entry of each
   column that has one is among them. No arithmetic is done, so the modulus needn't be prime, and modulo a prime their number is a lower
   bound of the rank. There are no more than rows, and no more than columns.
   Statuses: SPASM_OK, SPASM_BAD_INPUT, SPASM_NO_MEMORY, SPASM_NO_ROOM. */
uint32_t spasm_pivots(const spasm_matrix *matrix, spasm_places *pivots);

#ifdef __cplusplus
}
#endif

#endif
