/* Clavirost: the release code of a medicine safe, dealt as shares through a matrix modulo a prime.

   Link with libclavirost.a (`rt lib` in crates/clavirost writes out/libclavirost.a there; x86-64 Linux). Every call is proved to answer as
   said here for all numbers and lists: there is nothing that a caller has to promise, but that each pointer points to as many places as the
   length after it says (any pointer that is not NULL will do for a list of length 0), and that what is lent for a result overlaps nothing else
   that is lent: no list, and no other number.

   A list is a pointer and a length. A scheme is p, n, d, e, its d labels and its d times e entries, row by row. A set is a number: participant i
   is in it when bit i - 1 is one.

   What a call answers: 0, done; CLAVIROST_OPEN or CLAVIROST_YES; CLAVIROST_CLOSED or CLAVIROST_NO; or a refusal, the lowest that applies. A refused call leaves
   every list and number that was lent as it was.

      1  p is none of 2 3 5 7 11 13 17 19 23 29 31 127 251 257 8191 65521       2  n is not 1 to 16
      3  d is not 1 to 32                                                       4  e is not 1 to 12
      5  a list has not exactly the length needed                               6  a label is not 1 to n
      7  an entry is not below p                                                8  a set or a participant is not among the n
      9  a secret, random number or share that is read is not below p          10  t is not below n
     11  the set is closed                                                     12  no dealing gives these shares
     13  the text is no rule                                                   14  the rule names a participant above n
     15  the rule needs over 32 rows                                           16  the rule needs over 12 columns
     17  a file is not 1,024 or 1,536 bytes                                    18  a block's check is wrong
     19  a mark, kind, version or block number is wrong                        20  a byte that must be 0 is not, or the blocks do not fit d
     21  the card is in already                                                22  the card is not in

   Reading a file tries 5, 17, 18, 19, 1, 2, 3, 4, 20, 6, 7 in this order. No call allocates, keeps anything between calls, or reads the clock.
   The stack that each needs, measured on the compiled library (bench/stack), stands at the end of this file. */
#ifndef CLAVIROST_H
#define CLAVIROST_H

#include <stddef.h>
#include <stdint.h>

#ifdef __cplusplus
extern "C" {
#endif

#define CLAVIROST_DONE 0
#define CLAVIROST_YES 100
#define CLAVIROST_NO 101
#define CLAVIROST_OPEN CLAVIROST_YES
#define CLAVIROST_CLOSED CLAVIROST_NO

/* The places of a panel, and of the lists that a rule or a file is read into. */
#define CLAVIROST_LABELS 32
#define CLAVIROST_ENTRIES 384
#define CLAVIROST_STORED 32

/* Checks a scheme. Refusals 1 to 7. */
uint32_t clavirost_check(uint32_t p, uint32_t n, size_t d, size_t e, const uint32_t *labels, size_t labels_length,
                         const uint32_t *entries, size_t entries_length);

/* Deals a secret with e - 1 random numbers: d shares, share i for the owner of row i. Refusals 1 to 7, 9.
   The random numbers must be random, each of 0 to p - 1 equally likely, and must be destroyed: no proof can see to that. */
uint32_t clavirost_deal(uint32_t p, uint32_t n, size_t d, size_t e, const uint32_t *labels, size_t labels_length,
                        const uint32_t *entries, size_t entries_length, uint32_t secret, const uint32_t *randoms, size_t randoms_length,
                        uint32_t *shares, size_t shares_length);

/* Is the set open? CLAVIROST_OPEN, and r has the d weights that give the code back from its shares; or CLAVIROST_CLOSED, and z has the e numbers of the
   witness. The other list stays. Refusals 1 to 8; both lists are measured, d places for r and e for z. */
uint32_t clavirost_ask(uint32_t p, uint32_t n, size_t d, size_t e, const uint32_t *labels, size_t labels_length,
                       const uint32_t *entries, size_t entries_length, uint32_t set, uint32_t *r, size_t r_length, uint32_t *z, size_t z_length);

/* Joins the d shares of a set: the code. Places outside the set's rows are not read. Refusals 1 to 9, 11, 12. */
uint32_t clavirost_join(uint32_t p, uint32_t n, size_t d, size_t e, const uint32_t *labels, size_t labels_length,
                        const uint32_t *entries, size_t entries_length, uint32_t set, const uint32_t *shares, size_t shares_length,
                        uint32_t *code);

/* Do the shares of two codes, multiplied place by place and weighted, give the product of the codes? CLAVIROST_YES, and r has the d weights; or
   CLAVIROST_NO, and w has the e(e + 1)/2 numbers of the witness. The other list stays. Refusals 1 to 7. */
uint32_t clavirost_product(uint32_t p, uint32_t n, size_t d, size_t e, const uint32_t *labels, size_t labels_length,
                           const uint32_t *entries, size_t entries_length, uint32_t *r, size_t r_length, uint32_t *w, size_t w_length);

/* Is each set open exactly if it has at least t + 1 participants? CLAVIROST_YES, and `set` stays; or CLAVIROST_NO, and `set` is the first set that
   breaks it. Refusals 1 to 7, 10. */
uint32_t clavirost_threshold(uint32_t p, uint32_t n, size_t d, size_t e, const uint32_t *labels, size_t labels_length,
                             const uint32_t *entries, size_t entries_length, uint32_t t, uint32_t *set);

/* Makes the scheme of a written rule such as `(1|2)&3`: d labels and d times e entries in the first places, the others stay. 32 places for
   labels, 384 for entries. Refusals 1, 2, 5, 13 to 16. */
uint32_t clavirost_rule(uint32_t p, uint32_t n, const uint8_t *text, size_t text_length, uint32_t *labels, size_t labels_length,
                        uint32_t *entries, size_t entries_length, size_t *d, size_t *e);

/* Writes a scheme file of 1,024 bytes, or of 1,536 where d is above 20: exactly so many places. Refusals 1 to 7. */
uint32_t clavirost_write(uint32_t p, uint32_t n, size_t d, size_t e, const uint32_t *labels, size_t labels_length,
                         const uint32_t *entries, size_t entries_length, uint8_t *file, size_t file_length);

/* Reads a scheme file: its numbers, its labels and entries in the first places, the others stay. 32 places for labels, 384 for entries.
   Refusals 1 to 7, 17 to 20. */
uint32_t clavirost_read(const uint8_t *file, size_t file_length, uint32_t *labels, size_t labels_length, uint32_t *entries,
                        size_t entries_length, uint32_t *p, uint32_t *n, size_t *d, size_t *e);

/* The card panel. Its state is the scheme's four numbers, 32 places for labels, 384 for entries, the set of the cards that are in, and 32 places
   for stored shares; the caller keeps it, and every call checks it like any other input.
   A fresh panel has the scheme, no card, and 0 in all other places. Refusals 1 to 7. */
uint32_t clavirost_panel_new(uint32_t p, uint32_t n, size_t d, size_t e, const uint32_t *labels, size_t labels_length,
                             const uint32_t *entries, size_t entries_length, uint32_t *panel_labels, size_t panel_labels_length,
                             uint32_t *panel_entries, size_t panel_entries_length, uint32_t *cards, uint32_t *stored, size_t stored_length);

/* Puts a participant's card in: one share for each of the participant's rows. Refusals 1 to 9; 21 where it is in already. */
uint32_t clavirost_panel_put(uint32_t p, uint32_t n, size_t d, size_t e, const uint32_t *panel_labels, size_t panel_labels_length,
                             const uint32_t *panel_entries, size_t panel_entries_length, uint32_t *cards, uint32_t *stored,
                             size_t stored_length, uint32_t who, const uint32_t *shares, size_t shares_length);

/* Takes a participant's card out. Refusals 1 to 9; 22 where it is not in. */
uint32_t clavirost_panel_take(uint32_t p, uint32_t n, size_t d, size_t e, const uint32_t *panel_labels, size_t panel_labels_length,
                              const uint32_t *panel_entries, size_t panel_entries_length, uint32_t *cards, uint32_t *stored,
                              size_t stored_length, uint32_t who);

/* The code of the cards now in it, as joining gives it. Refusals 1 to 9; 11 where their set is closed, 12 where no dealing gives their shares. */
uint32_t clavirost_panel_code(uint32_t p, uint32_t n, size_t d, size_t e, const uint32_t *panel_labels, size_t panel_labels_length,
                              const uint32_t *panel_entries, size_t panel_entries_length, uint32_t cards, const uint32_t *stored,
                              size_t stored_length, uint32_t *code);

/* The sheet's line of a set, ended by byte 10, in the first of 256 places; how many bytes it has. Refusals 1 to 8. */
uint32_t clavirost_sheet_line(uint32_t p, uint32_t n, size_t d, size_t e, const uint32_t *labels, size_t labels_length,
                              const uint32_t *entries, size_t entries_length, uint32_t set, uint8_t *out, size_t out_length, size_t *size);

/* Part k of the sheet of a file, in the first places; how many bytes it has. Part 0 is the heading, or for a refused file the line REFUSED with
   its number (the call then still answers 0); each later part has a line for each 256 places of `out`, the last one what is left, and the first
   part of size 0 comes after the last line. Refusal 5 for fewer than 256 places. A longer list is a faster sheet, up to 1,048,576 places. */
uint32_t clavirost_sheet_part(const uint8_t *file, size_t file_length, uint32_t k, uint8_t *out, size_t out_length, size_t *size);

/* The deepest stack below each call, in bytes, with the largest inputs (bench/stack measures it on the compiled library):

   check              120      deal               184      ask, closed      2,744
   ask, open        2,744      join             6,728      product         31,436
   threshold        2,376      rule, deep      11,376      rule, long       6,096
   write              184      read               232      panel_new        1,992
   panel_put        2,328      panel_take       2,120      panel_code       8,632
   sheet_line       3,112      sheet_part     561,896

   A set question needs less than 4 KiB, the product verdict less than 64 KiB. clavirost_sheet_part keeps the answers of up to 4,096 sets; a thread
   with a small stack calls clavirost_sheet_line. */

#ifdef __cplusplus
}
#endif
#endif
