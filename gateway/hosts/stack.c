/* The stack of each call of the library, over inputs that reach its deepest paths.
 * stack-c    measures what each call touches, runs it on a stack of just the stated size with an unmapped page below,
 *            prints a line per call, and ends with 1 where a stated number of waterbook.h does not hold */
#define _GNU_SOURCE
#include <limits.h>
#include <pthread.h>
#include <string.h>

#include "waterbook.h"

/* What the calls are lent: the records with their counts, and the counts of the text and the buffer. */
struct lent {
    uint32_t card[WATERBOOK_CARD], reading[WATERBOOK_READING], notice[WATERBOOK_NOTICE];
    uint32_t rows[WATERBOOK_ROW * WATERBOOK_CELLS], old[WATERBOOK_OLD_ROW * WATERBOOK_CELLS];
    int64_t soil[WATERBOOK_SOIL * WATERBOOK_CELLS], amounts[WATERBOOK_AMOUNTS], sheet[WATERBOOK_SHEET];
    uint64_t sums[WATERBOOK_SUMS];
    size_t got[WATERBOOK_GOT];
    size_t card_len, reading_len, notice_len, rows_len, old_len, soil_len, amounts_len, sums_len, sheet_len, got_len;
    size_t text_len, buf_len;
    uint32_t cell, answered;
};

static uint8_t text[WATERBOOK_LONGEST + 1], buf[WATERBOOK_BOOK_ROOM(WATERBOOK_LONGEST + 1)];

#include "ground.h"

/* ---- the calls, each from a function that does nothing else ---- */

static void make_step(void) {
    number = waterbook_step(lent.card, lent.card_len, lent.soil, lent.soil_len, lent.rows, lent.rows_len, lent.reading,
                            lent.reading_len, lent.amounts, lent.amounts_len);
}

static void make_void(void) {
    number = waterbook_void(lent.card, lent.card_len, lent.soil, lent.soil_len, lent.rows, lent.rows_len, lent.notice,
                            lent.notice_len, lent.amounts, lent.amounts_len);
}

static void make_clear(void) { number = waterbook_clear(lent.card, lent.card_len, lent.rows, lent.rows_len); }

static void make_collect(void) {
    number = waterbook_collect(lent.card, lent.card_len, lent.rows, lent.rows_len, lent.cell, lent.sums, lent.sums_len);
}

static void make_grow(void) {
    number = waterbook_grow(lent.card, lent.card_len, lent.old, lent.old_len, lent.rows, lent.rows_len);
}

static void make_shrink(void) {
    number = waterbook_shrink(lent.card, lent.card_len, lent.rows, lent.rows_len, lent.old, lent.old_len);
}

static void make_add(void) {
    number = waterbook_add(lent.sheet, lent.sheet_len, lent.answered, lent.amounts, lent.amounts_len);
}

static void make_read_card(void) {
    number = waterbook_read_card(text, lent.text_len, lent.card, lent.card_len, lent.soil, lent.soil_len, lent.got,
                                 lent.got_len);
}

static void make_write_card(void) {
    number = waterbook_write_card(lent.card, lent.card_len, lent.soil, lent.soil_len, buf, lent.buf_len, lent.got,
                                  lent.got_len);
}

static void make_read_reading(void) {
    number = waterbook_read_reading(text, lent.text_len, lent.reading, lent.reading_len, lent.got, lent.got_len);
}

static void make_write_reading(void) {
    number = waterbook_write_reading(lent.reading, lent.reading_len, buf, lent.buf_len, lent.got, lent.got_len);
}

static void make_read_void(void) {
    number = waterbook_read_void(text, lent.text_len, lent.notice, lent.notice_len, lent.got, lent.got_len);
}

static void make_write_void(void) {
    number = waterbook_write_void(lent.notice, lent.notice_len, buf, lent.buf_len, lent.got, lent.got_len);
}

static void make_write_answer(void) {
    number = waterbook_write_answer(lent.cell, lent.answered, lent.amounts, lent.amounts_len, buf, lent.buf_len,
                                    lent.got, lent.got_len);
}

static void make_write_sheet(void) {
    number = waterbook_write_sheet(lent.sheet, lent.sheet_len, buf, lent.buf_len, lent.got, lent.got_len);
}

static void make_book(void) { number = waterbook_book(text, lent.text_len, buf, lent.buf_len); }

/* ---- what a case gives ---- */

/* The most water that slot k may hold under so many delays. */
static uint32_t slot_limit(uint32_t k, uint32_t delays) { return k > delays ? 0 : 2000000 * (delays - k + 1); }

/* A card of 256 cells with so many delays and the usual share, and full rows in life 3 with count 7 due, with sums of 0
 * and without. */
static void give_delays(uint32_t delays) {
    given.card[0] = WATERBOOK_CELLS;
    given.card[1] = delays;
    given.card[WATERBOOK_SHARE_AT] = WATERBOOK_USUAL_SHARE;
    for (uint32_t k = 1; k <= 30; k++)
        given.card[1 + k] = k <= delays ? 250000 * k : 0;
    for (size_t cell = 0; cell < WATERBOOK_CELLS; cell++) {
        uint32_t *row = given.rows + WATERBOOK_ROW * cell;
        row[0] = 3;
        row[1] = 7;
        for (uint32_t k = 1; k <= 30; k++)
            row[1 + k] = slot_limit(k, delays);
        memcpy(given.old + WATERBOOK_OLD_ROW * cell, row, WATERBOOK_OLD_ROW * sizeof *row);
    }
}

/* 10^18 as a high and a low number, and the places of the sums in a row. */
enum { FULL_HIGH = 232830643, RUNOFF = WATERBOOK_OLD_ROW, DRAINAGE = WATERBOOK_OLD_ROW + 2 };
static const uint32_t full_low = 2808348672;

/* Give a row full sums. */
static void give_full_sums(uint32_t *row) {
    row[RUNOFF] = row[DRAINAGE] = FULL_HIGH;
    row[RUNOFF + 1] = row[DRAINAGE + 1] = full_low;
}

/* Give a row sums of 0. */
static void give_no_sums(uint32_t *row) { memset(row + RUNOFF, 0, 4 * sizeof *row); }

/* All in order: 30 delays, soil numbers, the reading and the void that are due for the last cell, an answer and a
 * sheet. */
static void give_all(void) {
    static const int64_t plot[WATERBOOK_SOIL] = {10000000, 1500000, 200, 100000, 80};
    static const uint32_t fair[WATERBOOK_READING] = {255, 3, 7, 50800, 20000, 1000, 2000, 5000, 2, 0x410c0000};
    memset(&given, 0, sizeof given);
    give_delays(30);
    for (size_t i = 0; i < WATERBOOK_SOIL * WATERBOOK_CELLS; i++)
        given.soil[i] = plot[i % WATERBOOK_SOIL];
    memcpy(given.reading, fair, sizeof fair);
    memcpy(given.notice, fair, sizeof given.notice);
    given.notice_len = WATERBOOK_NOTICE;
    given.card_len = WATERBOOK_CARD;
    given.reading_len = WATERBOOK_READING;
    given.rows_len = WATERBOOK_ROW * WATERBOOK_CELLS;
    given.old_len = WATERBOOK_OLD_ROW * WATERBOOK_CELLS;
    given.soil_len = WATERBOOK_SOIL * WATERBOOK_CELLS;
    given.amounts_len = WATERBOOK_AMOUNTS;
    given.sums_len = WATERBOOK_SUMS;
    given.sheet_len = WATERBOOK_SHEET;
    given.got_len = WATERBOOK_GOT;
    given.buf_len = sizeof buf;
}

/* All in order, every number as long as its text can be. */
static void give_longest(void) {
    give_all();
    memset(given.card + 2, 0xff, (WATERBOOK_CARD - 2) * sizeof *given.card);
    memset(given.reading, 0xff, sizeof given.reading);
    memset(given.notice, 0xff, sizeof given.notice);
    given.cell = UINT32_MAX;
    for (size_t i = 0; i < WATERBOOK_SOIL * WATERBOOK_CELLS; i++)
        given.soil[i] = i % WATERBOOK_SOIL == 0 ? INT64_MIN : UINT32_MAX;
    for (size_t i = 0; i < WATERBOOK_AMOUNTS; i++)
        given.amounts[i] = i == 8 ? INT64_MIN : INT64_MAX;
    for (size_t i = 0; i < WATERBOOK_SHEET; i++)
        given.sheet[i] = i == 9 ? INT64_MIN : INT64_MAX;
}

/* Give a record one other signed number, try, and put the number back. */
static void try_with_signed(int64_t *place, int64_t other, size_t wanted) {
    int64_t kept = *place;
    *place = other;
    try(wanted);
    *place = kept;
}

/* ---- the cases of each call ---- */

/* Readings that are accepted: so many delays, tables of any height, all moistures, three shares. */
static void accepted_steps(void) {
    static const uint32_t heads[] = {0x410c0000, 0x41200000, 0x41280000, 0x411ffbe7, 0x461c4000, 0xc61c4000,
                                     0x80000001, 0xf149f2ca};
    static const uint32_t rains[] = {0, 12953, 600000}, shares[] = {5, 12, 20};
    for (uint32_t delays = 0; delays <= 30; delays++) {
        give_delays(delays);
        for (size_t i = 0; i < 8 * 3 * 3 * 2 * 3; i++) {
            given.reading[9] = heads[i % 8];
            given.reading[3] = rains[i / 8 % 3];
            given.reading[8] = (uint32_t)(1 + i / 24 % 3);
            given.reading[6] = given.reading[7] = i / 72 % 2 == 0 ? 0 : 1000000;
            given.card[WATERBOOK_SHARE_AT] = shares[i / 144];
            try(WATERBOOK_ACCEPTED);
        }
    }
}

/* A share out of range, on either side and far off. */
static void refused_shares(void) {
    static const uint32_t wrong[] = {0, 4, 21, UINT32_MAX};
    for (size_t i = 0; i < 4; i++)
        try_with(&given.card[WATERBOOK_SHARE_AT], wrong[i], WATERBOOK_BAD_CARD);
}

/* The refusals that all calls over rows have in common: by card and share, and by the length of the rows. */
static void refused_sites(void) {
    try_with(&given.card[31], 1, WATERBOOK_BAD_CARD);
    try_with(&given.card[0], 257, WATERBOOK_BAD_CARD);
    refused_shares();
    try_shorter(&given.rows_len, WATERBOOK_BAD_LENGTHS);
    try_shorter(&given.card_len, WATERBOOK_NOT_THE_COUNT);
}

/* A row's numbers out of range one by one, as far as it has them; its sums also by their low numbers. */
static void refused_rows(uint32_t *row, size_t width) {
    for (size_t i = 0; i < WATERBOOK_OLD_ROW; i++)
        try_with(&row[i], UINT32_MAX, WATERBOOK_BAD_ROW);
    if (width == WATERBOOK_OLD_ROW)
        return;
    try_with(&row[RUNOFF], FULL_HIGH + 1, WATERBOOK_BAD_ROW);
    try_with(&row[DRAINAGE], FULL_HIGH + 1, WATERBOOK_BAD_ROW);
    give_full_sums(row);
    try_with(&row[RUNOFF + 1], full_low + 1, WATERBOOK_BAD_ROW);
    try_with(&row[DRAINAGE + 1], full_low + 1, WATERBOOK_BAD_ROW);
    give_no_sums(row);
}

/* The refusals that a reading and a void have in common: those of the site, by its row, and by the entry's cell, life
 * and count, which stand first in it. */
static void refused_entries(uint32_t *entry) {
    uint32_t *row = given.rows + WATERBOOK_ROW * 255;
    refused_sites();
    try_shorter(&given.soil_len, WATERBOOK_BAD_LENGTHS);
    try_with(&entry[0], 256, WATERBOOK_BAD_CELL);
    for (size_t i = 0; i < WATERBOOK_SOIL; i++)
        try_with_signed(&given.soil[WATERBOOK_SOIL * 255 + i], INT64_MIN, WATERBOOK_BAD_SOIL);
    refused_rows(row, WATERBOOK_ROW);
    try_with(&row[0], 4, WATERBOOK_OLD);
    try_with(&entry[2], 6, WATERBOOK_OLD);
    try_with(&entry[2], 8, WATERBOOK_GAP);
    try_with(&entry[1], 4, WATERBOOK_GAP);
    row[1] = entry[2] = 1000000;
    try(WATERBOOK_BAD_READING);
    row[1] = entry[2] = 7;
    try_shorter(&given.amounts_len, WATERBOOK_NOT_THE_COUNT);
}

/* Readings over full sums, which would pass runoff, both, drainage, and neither; then one that carries in both. */
static void full_steps(void) {
    uint32_t *row = given.rows + WATERBOOK_ROW * 255;
    give_full_sums(row);
    try(WATERBOOK_SUM_FULL);
    try_with(&given.reading[9], 0x41280000, WATERBOOK_SUM_FULL);
    row[RUNOFF] -= 1;
    try_with(&given.reading[9], 0x41280000, WATERBOOK_SUM_FULL);
    try(WATERBOOK_ACCEPTED);
    row[RUNOFF] += 1;
    try_with(&given.reading[3], 0, WATERBOOK_ACCEPTED);
    row[RUNOFF + 1] = row[DRAINAGE + 1] = UINT32_MAX;
    row[RUNOFF] = row[DRAINAGE] = 0;
    try_with(&given.reading[9], 0x41280000, WATERBOOK_ACCEPTED);
    give_no_sums(row);
}

static void step_cases(void) {
    static const uint32_t wrong[] = {1000001, 1000001, 1000001, 1000001, 1999, 4};
    try(WATERBOOK_ACCEPTED);
    accepted_steps();
    give_all();
    refused_entries(given.reading);
    for (size_t i = 0; i < 6; i++)
        try_with(&given.reading[3 + i], wrong[i], WATERBOOK_BAD_READING);
    try_with(&given.reading[3], 600001, WATERBOOK_JAMMED_BUCKET);
    try_with(&given.reading[9], 0x7fc00001, WATERBOOK_UNUSABLE_HEAD);
    try_with(&given.reading[9], 0x461c4001, WATERBOOK_UNUSABLE_HEAD);
    try_with(&given.reading[9], 0x7149f2ca, WATERBOOK_INACTIVE_HEAD);
    try_shorter(&given.reading_len, WATERBOOK_NOT_THE_COUNT);
    full_steps();
}

static void void_cases(void) {
    for (uint32_t delays = 0; delays <= 30; delays++) {
        give_delays(delays);
        try_with(&given.card[WATERBOOK_SHARE_AT], 5, WATERBOOK_ACCEPTED);
        try(WATERBOOK_ACCEPTED);
    }
    refused_entries(given.notice);
    try_shorter(&given.notice_len, WATERBOOK_NOT_THE_COUNT);
}

static void clear_cases(void) {
    try(WATERBOOK_ACCEPTED);
    try_with(&given.card[WATERBOOK_SHARE_AT], 5, WATERBOOK_ACCEPTED);
    try_with(&given.card[2], 0, WATERBOOK_BAD_CARD);
    try_with(&given.card[31], 1, WATERBOOK_BAD_CARD);
    refused_shares();
    try_shorter(&given.rows_len, WATERBOOK_BAD_LENGTHS);
    try_shorter(&given.card_len, WATERBOOK_NOT_THE_COUNT);
}

static void collect_cases(void) {
    uint32_t *row = given.rows + WATERBOOK_ROW * 255;
    given.cell = 255;
    for (uint32_t delays = 0; delays <= 30; delays++) {
        give_delays(delays);
        try(WATERBOOK_ACCEPTED);
    }
    refused_sites();
    try_with(&given.cell, 256, WATERBOOK_BAD_CELL);
    refused_rows(row, WATERBOOK_ROW);
    try_shorter(&given.sums_len, WATERBOOK_NOT_THE_COUNT);
    give_full_sums(row);
    try(WATERBOOK_ACCEPTED);
    if (lent.sums[0] != 1000000000000000000 || lent.sums[1] != 1000000000000000000)
        exit(2);
}

/* The cases that both moves have; the rows that they take have so many numbers per cell. */
static void move_cases(uint32_t *taken, size_t width) {
    for (uint32_t delays = 0; delays <= 30; delays++) {
        give_delays(delays);
        try(WATERBOOK_ACCEPTED);
    }
    refused_sites();
    try_shorter(&given.old_len, WATERBOOK_BAD_LENGTHS);
    refused_rows(taken, width);
    refused_rows(taken + width * 255, width);
}

static void grow_cases(void) { move_cases(given.old, WATERBOOK_OLD_ROW); }

static void shrink_cases(void) {
    move_cases(given.rows, WATERBOOK_ROW);
    for (size_t i = WATERBOOK_OLD_ROW; i < WATERBOOK_ROW; i++) {
        try_with(&given.rows[i], 1, WATERBOOK_NOT_COLLECTED);
        try_with(&given.rows[WATERBOOK_ROW * 255 + i], 1, WATERBOOK_NOT_COLLECTED);
    }
}

static void add_cases(void) {
    for (size_t i = 0; i < WATERBOOK_AMOUNTS; i++)
        given.amounts[i] = 30000000000;
    try(WATERBOOK_ACCEPTED);
    given.sheet[0] = 99999999;
    for (size_t i = 1; i < WATERBOOK_SHEET; i++)
        given.sheet[i] = 30000000000 * 99999999;
    try(WATERBOOK_ACCEPTED);
    try_with(&given.answered, WATERBOOK_OLD, WATERBOOK_NOT_ADDABLE);
    try_with_signed(&given.sheet[0], 100000000, WATERBOOK_NOT_ADDABLE);
    try_with_signed(&given.sheet[0], -1, WATERBOOK_NOT_ADDABLE);
    for (size_t i = 1; i < WATERBOOK_SHEET; i++)
        try_with_signed(&given.sheet[i], INT64_MIN, WATERBOOK_NOT_ADDABLE);
    for (size_t i = 0; i < WATERBOOK_AMOUNTS; i++)
        try_with_signed(&given.amounts[i], INT64_MAX, WATERBOOK_NOT_ADDABLE);
    try_with_signed(&given.amounts[8], INT64_MIN, WATERBOOK_NOT_ADDABLE);
    try_shorter(&given.sheet_len, WATERBOOK_NOT_THE_COUNT);
    try_shorter(&given.amounts_len, WATERBOOK_NOT_THE_COUNT);
}

/* Put the text of a writer's last case where a reader finds it. */
static void take_text(void) {
    given.text_len = lent.got[0];
    memcpy(text, buf, given.text_len);
}

/* The text of the given card, with the given soil numbers. */
static void give_card_text(void) {
    lent = given;
    make_write_card();
    take_text();
}

/* Give a card text whose first line ends in share=20, which no card is written with. */
static void give_usual_share_text(void) {
    given.card[WATERBOOK_SHARE_AT] = 21;
    give_card_text();
    uint8_t *end = memchr(text, '\n', given.text_len);
    end[-1] = '0';
}

static void read_card_cases(void) {
    give_longest();
    give_card_text();
    try(WATERBOOK_ACCEPTED);
    try_shorter(&given.soil_len, WATERBOOK_BAD_LENGTHS);
    try_shorter(&given.text_len, WATERBOOK_MALFORMED);
    text[0] = 'C';
    try(WATERBOOK_MALFORMED);
    try_shorter(&given.card_len, WATERBOOK_NOT_THE_COUNT);
    try_shorter(&given.got_len, WATERBOOK_NOT_THE_COUNT);
    give_all();
    give_card_text();
    try(WATERBOOK_ACCEPTED);
    give_usual_share_text();
    try(WATERBOOK_MALFORMED);
}

/* A writer over a buffer that just holds the longest text of its kind, and over one that is a byte short. */
static void try_room(size_t longest) {
    given.buf_len = longest;
    try(WATERBOOK_ACCEPTED);
    if (lent.got[0] != longest) {
        printf("stack: the longest text of %s has %zu bytes, and not %zu\n", name, lent.got[0], longest);
        exit(1);
    }
    try_shorter(&given.buf_len, WATERBOOK_MALFORMED);
    try_shorter(&given.got_len, WATERBOOK_NOT_THE_COUNT);
}

static void write_card_cases(void) {
    give_longest();
    try_room(WATERBOOK_CARD_TEXT);
    try_with(&given.card[0], 257, WATERBOOK_MALFORMED);
    try_with(&given.card[1], 29, WATERBOOK_MALFORMED);
    try_with(&given.card[WATERBOOK_SHARE_AT], WATERBOOK_USUAL_SHARE, WATERBOOK_ACCEPTED);
    try_shorter(&given.soil_len, WATERBOOK_BAD_LENGTHS);
    try_with_signed(&given.soil[WATERBOOK_SOIL * 255 + 4], -1, WATERBOOK_MALFORMED);
    try_shorter(&given.card_len, WATERBOOK_NOT_THE_COUNT);
}

static void write_reading_cases(void) {
    give_longest();
    try_room(WATERBOOK_READING_TEXT);
    try_with(&given.reading[9], 0x410c0000, WATERBOOK_ACCEPTED);
    try_shorter(&given.reading_len, WATERBOOK_NOT_THE_COUNT);
}

static void read_reading_cases(void) {
    give_longest();
    lent = given;
    make_write_reading();
    take_text();
    try(WATERBOOK_ACCEPTED);
    try_shorter(&given.text_len, WATERBOOK_MALFORMED);
    text[5] = '0';
    try(WATERBOOK_MALFORMED);
    try_shorter(&given.reading_len, WATERBOOK_NOT_THE_COUNT);
    try_shorter(&given.got_len, WATERBOOK_NOT_THE_COUNT);
}

static void write_void_cases(void) {
    give_longest();
    try_room(WATERBOOK_VOID_TEXT);
    try_shorter(&given.notice_len, WATERBOOK_NOT_THE_COUNT);
}

static void read_void_cases(void) {
    give_longest();
    lent = given;
    make_write_void();
    take_text();
    try(WATERBOOK_ACCEPTED);
    try_shorter(&given.text_len, WATERBOOK_MALFORMED);
    text[10] = '0';
    try(WATERBOOK_MALFORMED);
    try_shorter(&given.notice_len, WATERBOOK_NOT_THE_COUNT);
    try_shorter(&given.got_len, WATERBOOK_NOT_THE_COUNT);
}

static void write_answer_cases(void) {
    give_longest();
    try_room(WATERBOOK_ANSWER_TEXT);
    try_with(&given.answered, WATERBOOK_OLD, WATERBOOK_MALFORMED);
    try_with_signed(&given.amounts[9], -1, WATERBOOK_MALFORMED);
    try_shorter(&given.amounts_len, WATERBOOK_NOT_THE_COUNT);
    memset(given.amounts, 0, sizeof given.amounts);
    for (uint32_t refused = 0; refused <= WATERBOOK_JAMMED_BUCKET + 1; refused++)
        try_with(&given.answered, refused,
                 refused <= WATERBOOK_INACTIVE_HEAD || refused == WATERBOOK_SUM_FULL ||
                         refused == WATERBOOK_JAMMED_BUCKET
                     ? WATERBOOK_ACCEPTED
                     : WATERBOOK_MALFORMED);
}

static void write_sheet_cases(void) {
    give_longest();
    try_room(WATERBOOK_SHEET_TEXT);
    for (size_t i = 0; i < 9; i++)
        try_with_signed(&given.sheet[i], -1, WATERBOOK_MALFORMED);
    try_shorter(&given.sheet_len, WATERBOOK_NOT_THE_COUNT);
    memset(given.sheet, 0, sizeof given.sheet);
    try(WATERBOOK_ACCEPTED);
}

/* Entries after the card's text, one for each cell in turn, as long as there is room: each eleventh is a void, and the
 * heads of the readings change. */
static void give_entries(void) {
    static const uint32_t heads[] = {0x410c0000, 0x41280000, 0xf149f2ca, 0x7149f2ca, 0x7fc00001};
    for (uint32_t i = 0; given.text_len + WATERBOOK_READING_TEXT <= WATERBOOK_LONGEST; i++) {
        uint32_t numbers[WATERBOOK_READING] = {i % 260, 0, i / 260, 600000, 1000000, 1000000, 1000000, 1000000,
                                               1 + i % 3, heads[i / 7 % 5]};
        size_t got[WATERBOOK_GOT];
        uint8_t *end = text + given.text_len;
        uint32_t written =
            i % 11 == 10
                ? waterbook_write_void(numbers, WATERBOOK_NOTICE, end, WATERBOOK_VOID_TEXT, got, WATERBOOK_GOT)
                : waterbook_write_reading(numbers, WATERBOOK_READING, end, WATERBOOK_READING_TEXT, got, WATERBOOK_GOT);
        if (written != WATERBOOK_ACCEPTED)
            exit(2);
        given.text_len += got[0];
    }
}

/* The length of the book of the text as it is. */
static size_t book_length(void) {
    lent = given;
    make_book();
    return number;
}

static void book_cases(void) {
    give_card_text();
    given.text_len -= 1;
    try(strlen("code=12 line=257\n"));
    given.text_len += 1;
    give_entries();
    given.buf_len = WATERBOOK_BOOK_ROOM(given.text_len);
    try(book_length());
    try_shorter(&given.buf_len, 0);
    given.text_len -= 1;
    try(book_length());
    text[0] = 'C';
    try(strlen("code=12 line=1\n"));
    give_all();
    given.text_len = WATERBOOK_LONGEST + 1;
    try(strlen("code=12 line=0\n"));
    give_longest();
    give_card_text();
    try(strlen("code=1\n"));
    give_all();
    given.card[WATERBOOK_SHARE_AT] = 5;
    give_card_text();
    give_entries();
    try(book_length());
    give_usual_share_text();
    try(strlen("code=12 line=1\n"));
    given.card[WATERBOOK_SHARE_AT] = 4;
    give_card_text();
    try(strlen("code=1\n"));
}

/* ---- all calls, and a thread ---- */

static void *in_thread(void *nothing) {
    make_book();
    return nothing;
}

/* A thread of the C library that has the least stack it can have and the book's beside it. */
static int thread_holds(void) {
    pthread_t thread;
    pthread_attr_t attributes;
    size_t size = ((size_t)PTHREAD_STACK_MIN + WATERBOOK_STACK_BOOK + 4095) / 4096 * 4096;
    name = "waterbook_book in a thread";
    give_all();
    give_card_text();
    give_entries();
    size_t wanted = book_length();
    number = 0;
    if (size > MOST || pthread_attr_init(&attributes) != 0 || pthread_attr_setstack(&attributes, ground, size) != 0 ||
        pthread_create(&thread, &attributes, in_thread, NULL) != 0 || pthread_join(thread, NULL) != 0)
        exit(2);
    printf("stack: %s of %zu bytes gives %zu\n", name, size, number);
    return number == wanted;
}

int main(void) {
    lay_ground();
    int all = held("waterbook_step", WATERBOOK_STACK_STEP, make_step, step_cases);
    all &= held("waterbook_void", WATERBOOK_STACK_VOID, make_void, void_cases);
    all &= held("waterbook_clear", WATERBOOK_STACK_CLEAR, make_clear, clear_cases);
    all &= held("waterbook_collect", WATERBOOK_STACK_COLLECT, make_collect, collect_cases);
    all &= held("waterbook_grow", WATERBOOK_STACK_GROW, make_grow, grow_cases);
    all &= held("waterbook_shrink", WATERBOOK_STACK_SHRINK, make_shrink, shrink_cases);
    all &= held("waterbook_add", WATERBOOK_STACK_ADD, make_add, add_cases);
    all &= held("waterbook_read_card", WATERBOOK_STACK_READ_CARD, make_read_card, read_card_cases);
    all &= held("waterbook_write_card", WATERBOOK_STACK_WRITE_CARD, make_write_card, write_card_cases);
    all &= held("waterbook_read_reading", WATERBOOK_STACK_READ_READING, make_read_reading, read_reading_cases);
    all &= held("waterbook_write_reading", WATERBOOK_STACK_WRITE_READING, make_write_reading, write_reading_cases);
    all &= held("waterbook_read_void", WATERBOOK_STACK_READ_VOID, make_read_void, read_void_cases);
    all &= held("waterbook_write_void", WATERBOOK_STACK_WRITE_VOID, make_write_void, write_void_cases);
    all &= held("waterbook_write_answer", WATERBOOK_STACK_WRITE_ANSWER, make_write_answer, write_answer_cases);
    all &= held("waterbook_write_sheet", WATERBOOK_STACK_WRITE_SHEET, make_write_sheet, write_sheet_cases);
    all &= held("waterbook_book", WATERBOOK_STACK_BOOK, make_book, book_cases);
    all &= thread_holds();
    return all ? 0 : 1;
}
