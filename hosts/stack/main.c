/* Measures the stack that each call of the library needs: it is made in a thread on a painted stack, and what counts are the bytes from the
   call down to the lowest one that changed. Built and run by hosts/stack/run.
   Ends with status 1 if a call needs more than the header says, and 2 if a measurement fails. */
#define _POSIX_C_SOURCE 200809L
#include "wulambey.h"
#include <inttypes.h>
#include <pthread.h>
#include <stdio.h>
#include <stdlib.h>
#include <string.h>

enum { ROOM = 4 << 20, STATIONS = 8, PAGES = 1920, LENGTH = 4096, FIELDS = 3 };

/* The calls, in the order of the table. */
enum { SIGN, SUMS, SOLVE, SERVE_CARD, SERVE_JOB, FINDINGS, PAGE_SIGNATURE, ROW_SUM, WEIGH, SETTLE, CALLS };
static const char *const NAMES[CALLS] = {"sign", "sums", "solve", "serve_card", "serve_job", "findings", "page_signature", "row_sum", "weigh", "settle"};

/* What the next call is handed. */
static uint32_t field, station, code, request[4], card[PAGES], sums[WULAMBEY_SUMS], reply[WULAMBEY_REPLY_WORDS];
static uint32_t tally[WULAMBEY_TALLY_WORDS(STATIONS, PAGES)];
static uint8_t job[PAGES * LENGTH], farm[3 + STATIONS * 255 + 1], text[WULAMBEY_TEXT_BYTES];
static wulambey_entry list[WULAMBEY_LIST_PLACES];
static size_t stations, pages, bound, job_len, page_length, values, input_len, count, place;

static void sign(void) { wulambey_sign(field, job, job_len, page_length, card, PAGES, &count, &place); }
static void sum(void) { wulambey_sums(field, card, pages, sums, values, &place); }
static void solve(void) { wulambey_solve(field, pages, sums, values, bound, list, &count, &place); }
static void serve_card(void) { wulambey_serve_card(field, card, pages, station, request, 4, reply, WULAMBEY_REPLY_WORDS, &count, &place); }
static void serve_job(void)
{
    wulambey_serve_job(field, job, job_len, page_length, station, request, 4, reply, WULAMBEY_REPLY_WORDS, &count, &place);
}
static void findings(void) { wulambey_findings(farm, input_len, text, sizeof text, &count, &place); }
static void page_signature(void) { wulambey_page_signature(field, job, job_len, page_length, pages, &code, &place); }
static void row_sum(void) { wulambey_row_sum(field, card, pages, values, &code, &place); }
static void weigh(void) { wulambey_weigh(field, stations, pages, bound, tally, WULAMBEY_TALLY_WORDS(stations, pages), &place); }
static void settle(void) { wulambey_settle(field, stations, pages, bound, tally, WULAMBEY_TALLY_WORDS(stations, pages), &place); }

static void (*const WORKS[CALLS])(void) = {sign, sum, solve, serve_card, serve_job, findings, page_signature, row_sum, weigh, settle};

/* The painted stack, in words, and the most bytes that each call needed in each field. */
static const uint64_t PAINT = 0xA5A5A5A5A5A5A5A5u;
static _Alignas(4096) uint64_t stack[ROOM / sizeof PAINT];
static size_t lowest, most[CALLS][FIELDS], needed;

/* Makes the call, and looks how far down the stack has changed since it was painted. */
static void *start(void *work)
{
    volatile uint64_t here = 0;
    (*(void (*const *)(void))work)();
    for (lowest = 0; stack[lowest] == PAINT;)
        lowest++;
    needed = (size_t)((const volatile uint8_t *)&here - (const uint8_t *)&stack[lowest]);
    return NULL;
}

static void paint(size_t from)
{
    for (size_t word = from; word < ROOM / sizeof PAINT; word++)
        stack[word] = PAINT;
}

/* The bytes that the call needs. */
static size_t touched(void (*const *work)(void))
{
    pthread_attr_t attributes;
    pthread_t thread;
    if (pthread_attr_init(&attributes) != 0 || pthread_attr_setstack(&attributes, stack, ROOM) != 0
        || pthread_create(&thread, &attributes, start, (void *)work) != 0 || pthread_join(thread, NULL) != 0) {
        fprintf(stderr, "there is no thread with a stack of its own\n");
        exit(2);
    }
    pthread_attr_destroy(&attributes);
    paint(lowest < 8192 ? 0 : lowest - 8192);
    return needed;
}

static void measure(int call)
{
    const size_t bytes = touched(&WORKS[call]);
    if (bytes > most[call][field - 1])
        most[call][field - 1] = bytes;
}

/* Pseudorandom numbers, always the same: from 0 to this one, without it. */
static size_t below(size_t end)
{
    static uint64_t state = 1;
    state = state * 6364136223846793005u + 1442695040888963407u;
    return (size_t)((state >> 33) % end);
}

static size_t most_pages(void) { return field == WULAMBEY_SMALL ? 255 : PAGES; }

/* Signing, and what is asked of a job and of its card. */
static void measure_rows(void)
{
    static const size_t LENGTHS[] = {1, 2, 64, LENGTH};
    const size_t counts[] = {1, 2, 100, most_pages()};
    for (size_t k = 0; k < 16; k++) {
        page_length = LENGTHS[k / 4];
        pages = counts[k % 4];
        job_len = pages * page_length - below(page_length);
        measure(SIGN);
        measure(PAGE_SIGNATURE);
        values = 1 + below(WULAMBEY_SUMS);
        measure(ROW_SUM);
        measure(SUMS);
        for (uint32_t kind = 3; kind <= 4; kind++) {
            const uint32_t last = kind == 3 ? WULAMBEY_SUMS : (uint32_t)pages;
            const uint32_t words[] = {0x10000001, 0x20000000 + station, kind << 28 | 1, 0x50000000 + last};
            memcpy(request, words, sizeof words);
            measure(SERVE_CARD);
            measure(SERVE_JOB);
        }
    }
}

/* Solving differences of planted weights, within the limit and above it. */
static void measure_solving(void)
{
    static const size_t WEIGHTS[] = {0, 1, 2, 17, 64};
    const size_t counts[] = {1, 2, 64, 128, most_pages()};
    for (size_t k = 0; k < 100; k++) {
        bound = WEIGHTS[k % 5];
        pages = counts[k / 5 % 5];
        values = k % 2 == 0 || pages > WULAMBEY_SUMS ? 2 * bound : pages;
        memset(card, 0, sizeof card);
        for (size_t planted = below(bound + 3); planted > 0; planted--)
            card[below(pages)] = 1 + (uint32_t)below(255);
        wulambey_sums(field, card, pages, sums, values, &place);
        measure(SOLVE);
    }
}

/* Rows of some kind: equal, or with strays at one station, at station 1, at two, at any, or with nothing in common. */
static void strew(uint32_t (*rows)[PAGES], int kind)
{
    const size_t one = kind == 2 ? 0 : stations - 1;
    for (size_t page = 0; page < pages; page++)
        rows[0][page] = (uint32_t)below(256);
    for (size_t s = 1; s < stations; s++)
        for (size_t page = 0; page < pages; page++)
            rows[s][page] = kind == 5 ? (uint32_t)below(256) : rows[0][page];
    for (size_t stray = kind == 0 ? 0 : bound; stray > 0; stray--) {
        const size_t s = kind == 3 ? below(2) : kind == 4 ? below(stations) : one;
        rows[s][below(pages)] = (uint32_t)below(256);
    }
}

/* A tally of these rows: row 1, and all sums. */
static void tell(uint32_t (*rows)[PAGES])
{
    const size_t words = pages + WULAMBEY_SUMS;
    memset(tally, 0, sizeof tally);
    memcpy(tally, rows[0], pages * sizeof rows[0][0]);
    for (size_t s = 0; s < stations; s++) {
        if (s > 0 && memcmp(rows[s], rows[0], pages * sizeof rows[0][0]) == 0)
            memcpy(tally + s * words + pages, tally + pages, WULAMBEY_SUMS * sizeof tally[0]);
        else if (wulambey_sums(field, rows[s], pages, tally + s * words + pages, WULAMBEY_SUMS, &place) != WULAMBEY_DONE)
            exit(2);
    }
}

/* Weighing, settling and finding in farms of these rows. */
static void measure_farm(uint32_t (*rows)[PAGES])
{
    tell(rows);
    measure(WEIGH);
    // it reads row 1 and the sums, which weighing leaves as they are
    measure(SETTLE);
    if (field != WULAMBEY_SMALL)
        return;
    farm[0] = (uint8_t)stations, farm[1] = (uint8_t)pages, farm[2] = (uint8_t)bound;
    for (size_t s = 0; s < stations; s++)
        for (size_t page = 0; page < pages; page++)
            farm[3 + s * pages + page] = (uint8_t)rows[s][page];
    input_len = 3 + stations * pages;
    measure(FINDINGS);
    input_len++;
    measure(FINDINGS);
}

static void measure_farms(void)
{
    static const size_t BOUNDS[] = {1, 2, 8, 64};
    static uint32_t rows[STATIONS][PAGES];
    const size_t counts[] = {1, 2, 5, 100, most_pages()};
    for (size_t k = 0; k < 20; k++)
        for (stations = 3; stations <= STATIONS; stations++)
            for (int kind = 0; kind <= 5; kind++) {
                bound = BOUNDS[k / 5];
                pages = counts[k % 5];
                strew(rows, kind);
                measure_farm(rows);
            }
}

/* The table; whether all of it is within what the header says. */
static int print(void)
{
    size_t all = 0;
    printf("%-15s %9s %9s %9s\n", "bytes of stack", "small", "wide", "prime");
    for (int call = 0; call < CALLS; call++) {
        printf("%-15s", NAMES[call]);
        for (int k = 0; k < FIELDS; k++) {
            if (most[call][k] > 0)
                printf(" %9zu", most[call][k]);
            if (most[call][k] > all)
                all = most[call][k];
        }
        printf("\n");
    }
    printf("the most: %zu, of %d that the header names\n", all, WULAMBEY_STACK);
    return all <= WULAMBEY_STACK;
}

int main(void)
{
    paint(0);
    for (size_t k = 0; k < sizeof job; k++)
        job[k] = (uint8_t)below(256);
    station = 4;
    for (field = WULAMBEY_SMALL; field <= WULAMBEY_PRIME; field++) {
        measure_rows();
        measure_solving();
        measure_farms();
    }
    return print() ? 0 : 1;
}
