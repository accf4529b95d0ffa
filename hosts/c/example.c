/* From C: signs a job, serves a request from its card, shows refused calls, judges the example farm, and weighs and settles a tally.
   Built and run by hosts/c/run. */
#include "wulambey.h"

#include <inttypes.h>
#include <stdio.h>
#include <string.h>

static void print_words(const char *what, const uint32_t *words, size_t count)
{
    printf("%s", what);
    for (size_t i = 0; i < count; i++)
        printf(" %08" PRIX32, words[i]);
    printf("\n");
}

/* Prints the status and the place of a call that was not done. */
static int failed(const char *call, uint32_t status, size_t place)
{
    printf("%s: status %" PRIu32 ", place %zu\n", call, status, place);
    return 1;
}

enum { STATIONS = 4, PAGES = 3, ROW = PAGES + WULAMBEY_SUMS };

/* Sum j of a row, at its place in the row of a station, counted from 0. */
static uint32_t tell(uint32_t *tally, size_t station, const uint32_t *row, size_t j, size_t *place)
{
    return wulambey_row_sum(WULAMBEY_PRIME, row, PAGES, j, &tally[station * ROW + PAGES + j - 1], place);
}

/* Four stations, three pages, a bound of 1: check 5 of docs/RULES.md, without a check. All rows are 3, 0, 5 but that of station 4, which is
   3, 7, 5. */
static int judge(void)
{
    const uint32_t own[PAGES] = {3, 0, 5}, fourth[PAGES] = {3, 7, 5};
    uint32_t tally[WULAMBEY_TALLY_WORDS(STATIONS, PAGES)] = {0};
    size_t place = 0;

    /* row 1, and sum 1 of each row */
    memcpy(tally, own, sizeof own);
    uint32_t status = WULAMBEY_DONE;
    for (size_t station = 0; station < STATIONS && status == WULAMBEY_DONE; station++)
        status = tell(tally, station, station == 3 ? fourth : own, 1, &place);
    if (status != WULAMBEY_DONE)
        return failed("sum 1", status, place);
    status = wulambey_weigh(WULAMBEY_PRIME, STATIONS, PAGES, 1, tally, WULAMBEY_TALLY_WORDS(STATIONS, PAGES), &place);
    if (status != WULAMBEY_ASKS)
        return failed("weigh", status, place);
    printf("asks %zu\n", place);

    /* sum 2 of row 1 and of the station that is asked */
    status = tell(tally, 0, own, 2, &place);
    if (status == WULAMBEY_DONE)
        status = tell(tally, 3, fourth, 2, &place);
    if (status != WULAMBEY_DONE)
        return failed("sum 2", status, place);
    status = wulambey_settle(WULAMBEY_PRIME, STATIONS, PAGES, 1, tally, WULAMBEY_TALLY_WORDS(STATIONS, PAGES), &place);
    if (status != WULAMBEY_DONE)
        return failed("settle", status, place);
    const uint32_t *row = tally + 3 * ROW;
    printf("row 4 %" PRIu32 " %" PRIu32 " %" PRIu32 "\n", row[0], row[1], row[2]);
    return 0;
}

int main(void)
{
    size_t count = 0, place = 0;

    /* The job 1, 2, 3, 4, 5 in pages of 3 bytes, in prime: two signatures. */
    const uint8_t job[] = {1, 2, 3, 4, 5};
    uint32_t card[WULAMBEY_CARD_WORDS] = {0};
    uint32_t status = wulambey_sign(WULAMBEY_PRIME, job, sizeof job, 3, card, WULAMBEY_CARD_WORDS, &count, &place);
    if (status != WULAMBEY_DONE)
        return failed("sign", status, place);
    const size_t pages = count;
    printf("card");
    for (size_t n = 0; n < pages; n++)
        printf(" %" PRIu32, card[n]);
    printf("\n");

    uint32_t sums[2] = {0};
    status = wulambey_sums(WULAMBEY_PRIME, card, pages, sums, 2, &place);
    if (status != WULAMBEY_DONE)
        return failed("sums", status, place);
    printf("sums %" PRIu32 " %" PRIu32 "\n", sums[0], sums[1]);

    /* Check 5 asks station 4 for sum 2. */
    const uint32_t request[] = {0x10000005, 0x20000004, 0x30000002, 0x50000002};
    uint32_t reply[WULAMBEY_REPLY_WORDS] = {0};
    status = wulambey_serve_card(WULAMBEY_PRIME, card, pages, 4, request, 4, reply, WULAMBEY_REPLY_WORDS, &count, &place);
    if (status != WULAMBEY_DONE)
        return failed("serve", status, place);
    print_words("reply", reply, count);

    /* Station 3 refuses the words meant for station 4: 9, place 2. */
    status = wulambey_serve_card(WULAMBEY_PRIME, card, pages, 3, request, 4, reply, WULAMBEY_REPLY_WORDS, &count, &place);
    if (status != WULAMBEY_FOREIGN || place != 2)
        return failed("serve at station 3", status, place);
    printf("refused %" PRIu32 " %zu\n", status, place);

    /* The job has no page 3: 11, place 0. */
    uint32_t signature = 0;
    status = wulambey_page_signature(WULAMBEY_PRIME, job, sizeof job, 3, 3, &signature, &place);
    if (status != WULAMBEY_RANGE || place != 0)
        return failed("the signature of page 3", status, place);
    printf("refused %" PRIu32 " %zu\n", status, place);

    /* The example farm: four stations, three pages, a bound of 1. */
    const uint8_t farm[] = {4, 3, 1, 3, 0, 5, 3, 0, 5, 3, 0, 5, 3, 7, 5};
    uint8_t text[WULAMBEY_TEXT_BYTES] = {0};
    status = wulambey_findings(farm, sizeof farm, text, sizeof text, &count, &place);
    if (status != WULAMBEY_DONE)
        return failed("findings", status, place);
    fwrite(text, 1, count, stdout);
    return judge();
}
