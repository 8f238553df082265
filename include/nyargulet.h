/* The public operations of Nyargulet for C. Every input is answered; nothing is asked of the caller but memory that is his to lend.

   Each lent run of bytes is a pointer and a length. The runs that one call writes overlap no other run of that call.
   A pointer is never null; to a run of length 0 it may be any other.

   The numbers that an operation returns, and the place that goes with each:

     0  done or accepted                            length written or read
     1  n outside 1..12                             n
     2  p not a prime in 2..251                     p
     3  the matrix's length is not n*n              the length given
     4  an entry at or above p                      its index, the first such (0 for the reciprocal)
     5  the output is too short                     the length needed
     6  the bytes end inside or before a record     offset where that record starts
     7  a wrong mark                                offset of the mark
     8  a wrong length                              offset of the length
     9  a payload byte at or above p                its offset, the first such
    10  bytes after the last record                 offset of the first
    11  an equation fails                           the rule, 1 to 9 */
#ifndef NYARGULET_H
#define NYARGULET_H

#include <stddef.h>
#include <stdint.h>

#ifdef __cplusplus
extern "C" {
#endif

/* The largest order, and the length of its certificate. */
#define NYARGULET_ORDER 12
#define NYARGULET_ROOM 7686

/* The length of a certificate of order n, for n from 1 to 12. */
#define NYARGULET_LENGTH(n) (4 * (n) * (n) * (n) + 5 * (n) * (n) + (n) + 42)

/* Writes the certificate of a matrix modulo p, of order n, given row by row, to the front of out. Bytes past it stay as they were;
   so does every byte of out where the answer is not 0. */
uint8_t nyargulet_analysis(uint64_t p, uint64_t n, const uint8_t *matrix, size_t matrix_length, uint8_t *out, size_t out_length,
                           uint64_t *place);

/* Reads a certificate from anyone and asks its nine rules. */
uint8_t nyargulet_check(const uint8_t *certificate, size_t certificate_length, uint64_t *place);

/* The payload under a mark of two letters: returns its length and stores the offset at which it starts. Both are 0 where the
   certificate is not read or the mark is none of HD MA DF PL PI QR QI FB TB TI. The rules are not asked. */
uint64_t nyargulet_find(const uint8_t *certificate, size_t certificate_length, const uint8_t *mark, size_t mark_length, uint64_t *start);

/* Stores the reciprocal of x modulo p, 0 for 0; or, where the answer is 2 or 4, its place. */
uint8_t nyargulet_reciprocal(uint64_t p, uint64_t x, uint64_t *value);

#ifdef __cplusplus
}
#endif

#endif
