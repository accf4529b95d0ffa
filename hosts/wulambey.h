/* Wulambey for programs in C: which pages of a replicated print job differ from what most stations hold.
   docs/RULES.md says what is computed, docs/HOSTING.md how to build and link.

   What a call returns:
     0          it did what it says
     1 to 12    a refusal's number. *place holds its place, and nothing else was written
     251 to 253 how a tally is judged (wulambey_weigh and wulambey_settle only)
     254        there is no solution (wulambey_solve only); nothing was written
     255        no field has the number; nothing was written
   *place is written by a refusal alone, or where a line below says so. *count, *signature and *sum are written with 0 alone. A buffer that is
   written keeps what it holds past what is written.

   The calls need no memory but what they are handed and the stack: no allocator is called.

   Where several rules are due, a call is refused by the first of them, in the order given with it.

   A slice is a pointer and a length, counted in what it points to. What the caller owes: no pointer is NULL, also with a length of 0; the
   memory behind a pointer is initialized, of that length, and aligned; and what a call writes overlaps nothing else that it is handed. */
#ifndef WULAMBEY_H
#define WULAMBEY_H

#include <stddef.h>
#include <stdint.h>

#ifdef __cplusplus
extern "C" {
#endif

/* The fields. A job has at most 255 pages in small, and 1,920 in wide and in prime. */
#define WULAMBEY_SMALL 1u
#define WULAMBEY_WIDE 2u
#define WULAMBEY_PRIME 3u

/* The refusals. */
#define WULAMBEY_SIZE 1u
#define WULAMBEY_CRAMPED 2u
#define WULAMBEY_UNKNOWN 3u
#define WULAMBEY_OUT 4u
#define WULAMBEY_IN 5u
#define WULAMBEY_UNASKED 6u
#define WULAMBEY_MISSING 7u
#define WULAMBEY_GARBLED 8u
#define WULAMBEY_FOREIGN 9u
#define WULAMBEY_STRAY 10u
#define WULAMBEY_RANGE 11u
#define WULAMBEY_SILENT 12u

/* What else a call returns. */
#define WULAMBEY_DONE 0u
#define WULAMBEY_OVER 251u
#define WULAMBEY_SPLIT 252u
#define WULAMBEY_ASKS 253u
#define WULAMBEY_NO_SOLUTION 254u
#define WULAMBEY_NO_FIELD 255u

/* Room that always suffices: a card's words; a reply's words; a list's places; a text's bytes. */
#define WULAMBEY_CARD_WORDS 1920
#define WULAMBEY_REPLY_WORDS (4 + 1920)
#define WULAMBEY_LIST_PLACES 129
#define WULAMBEY_TEXT_BYTES (8 * 255 * 6 + 26)

/* How many sums a station tells, and the words of a tally. */
#define WULAMBEY_SUMS 128
#define WULAMBEY_TALLY_WORDS(stations, pages) ((stations) * ((pages) + WULAMBEY_SUMS))

/* The bytes of stack that suffice for each call, whatever it is handed: measured by hosts/stack/run. */
#define WULAMBEY_STACK 262144

/* One page of a solution, with its code, which is not 0. */
typedef struct {
    size_t page;
    uint32_t code;
} wulambey_entry;

/* Signs a job into a card: one signature for each page, in order, at the front of card; *count is how many. The job's pages have page_length
   bytes; a short last page is filled with zero bytes, which count.
   Refused: the page length is not 1 to 4,096 (1, place 7); the number of pages is not 1 to 255 in small, 1 to 1,920 in wide and prime (1,
   place 3); the card is shorter than the job has pages (2, place 2). */
uint32_t wulambey_sign(uint32_t field, const uint8_t *job, size_t job_len, size_t page_length, uint32_t *card, size_t card_len, size_t *count,
                       size_t *place);

/* Writes the sums 1 to sums_len of a card into sums. A word of the card that is q or more counts modulo q.
   Refused: the number of words is not one that a job's pages can have (1, place 3); more than 128 sums (11, place 0). */
uint32_t wulambey_sums(uint32_t field, const uint32_t *card, size_t card_len, uint32_t *sums, size_t sums_len, size_t *place);

/* Solves a difference: the codes of the pages 1 to pages, at most weight of them not 0, whose sums 1 to values_len are the values. list has 129
   places. The solution's pages are written into it, rising, each with its code, and page 0 and code 0 into all places after the last; *count is
   how many pages there are. With 254 there is no such solution.
   Refused: the number of pages is not 1 to 255 in small, 1 to 1,920 in wide and prime (1, place 3); more than 128 values, or neither as many as
   pages nor twice the weight or more (1, place 6); a value of q or more (8, the position of the first, from 1). */
uint32_t wulambey_solve(uint32_t field, size_t pages, const uint32_t *values, size_t values_len, size_t weight, wulambey_entry *list, size_t *count,
                        size_t *place);

/* Answers a request to the station with this number, whose row is a card: the reply's words are at the front of reply, *count of them. A word of
   the card that is q or more counts modulo q.
   Refused: the card's number of words is not one that a job's pages can have (1, place 3); a word of the request is missing, surplus or of a
   wrong kind: four are due, of the kinds 1, 2, 3 or 4, 5 (8, the lowest such position, from 1); another station's number (9, place 2); an index
   outside 1 to 128 for sums or 1 to the number of pages for pages, or the first above the last (11, place 0); a reply buffer that is too short
   (2, place 2). Any check number is served. */
uint32_t wulambey_serve_card(uint32_t field, const uint32_t *card, size_t card_len, uint32_t station, const uint32_t *request, size_t request_len,
                             uint32_t *reply, size_t reply_len, size_t *count, size_t *place);

/* The same, the row being the signatures of a job's pages.
   Refused: the page length is not 1 to 4,096 (1, place 7); the number of pages is not 1 to 255 in small, 1 to 1,920 in wide and prime (1, place
   3); then as wulambey_serve_card refuses a request (8, 9, 11, 2). */
uint32_t wulambey_serve_job(uint32_t field, const uint8_t *job, size_t job_len, size_t page_length, uint32_t station, const uint32_t *request,
                            size_t request_len, uint32_t *reply, size_t reply_len, size_t *count, size_t *place);

/* The findings on a farm of cards in the small field. input: the bytes M, N, f, then M times N signatures, station by station. All bytes that
   the program wulambey writes for them are at the front of text, *count of them: lines `station page`, or `split page`, or `over`, then `sums
   count`; where the farm is refused, the line `refused NUMBER PLACE`.
   Refused: a text buffer that is too short for these bytes (2, place 2); nothing is written then. */
uint32_t wulambey_findings(const uint8_t *input, size_t input_len, uint8_t *text, size_t text_len, size_t *count, size_t *place);

/* The calls below are parts of the ones above, for programs that keep a tally of their own. */

/* The signature of page `page` of a job, into *signature. The job's pages have page_length bytes; a short last page is filled with zero bytes.
   Refused: the page length is not 1 to 4,096 (1, place 7); the number of pages is not 1 to 255 in small, 1 to 1,920 in wide and prime (1,
   place 3); the page is not 1 to the number of pages (11, place 0). */
uint32_t wulambey_page_signature(uint32_t field, const uint8_t *job, size_t job_len, size_t page_length, size_t page, uint32_t *signature,
                                 size_t *place);

/* Sum j of a row, into *sum. A word of the row that is q or more counts modulo q.
   Refused: the number of words is not one that a job's pages can have (1, place 3); j is not 1 to 128 (11, place 0). */
uint32_t wulambey_row_sum(uint32_t field, const uint32_t *row, size_t row_len, size_t j, uint32_t *sum, size_t *place);

/* Weighing judges a tally as a check that is not plain does after its first asking, also where a check with these numbers would be plain.
   The tally has a row of pages + 128 words for each station, in order: its signatures by page, then its sums 1 to 128. The outcome depends on row
   1's signatures and on the sums 1 to h of every row; h is the bound, or with three stations half of 3 * bound, rounded up. Words of q or more
   count modulo q.
     0     the rows are filled: in all rows but row 1 the signatures are written, as codes. Whether each page has a majority is for the caller to
           see. No other word is written: row 1 and the sums stay as they were
     251   over
     252   split, with the page in *place
     253   a station is to be asked again, with its number in *place: for its sums h + 1 to J; J is the lower of
           pages and 2 * bound
   With 251, 252 and 253 the tally stays as it was.
   Refused: the number of stations is not 3 to 8 (1, place 2); the number of pages is not 1 to 255 in small, 1 to 1,920 in wide and prime (1,
   place 3); the bound is not 1 to 64 (1, place 4); a tally that is too short for its rows (2, place 1). */
uint32_t wulambey_weigh(uint32_t field, size_t stations, size_t pages, size_t bound, uint32_t *tally, size_t tally_len, size_t *place);

/* Settling judges a tally once the station that weighing names has told its other sums. It works weighing out anew from the tally that it is handed.
   Where that asks nobody again, it ends as weighing does. Where it asks a station, the outcome also depends on the sums h + 1 to J of that station
   and of row 1. It never asks again: it returns 0, 251 or 252, as weighing does, or a refusal in the same order. */
uint32_t wulambey_settle(uint32_t field, size_t stations, size_t pages, size_t bound, uint32_t *tally, size_t tally_len, size_t *place);

#ifdef __cplusplus
}
#endif

#endif
