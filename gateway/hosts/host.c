/* A host in C: keeps the book of the rules page's example, with a day of rain and a void after it, through the proved
 * library, collects what ran off and drained, and moves its rows back and over; and once more with a share of 5 on its
 * card.
 * host-c               the two examples
 * host-c SEED CALLS    so many random calls, wrong counts of numbers among them; for valgrind */
#include <inttypes.h>
#include <stdio.h>
#include <stdlib.h>
#include <string.h>

#include "dice.h"
#include "waterbook.h"

/* A card without its line's end, and the lines behind it. */
#define CARD_LINE "cells=1 delays=2 depth=1000000 depth=2000000"
#define OTHER_LINES \
    "top=10000000 etdepth=1500000 vadpor=200 leak=100000 cn=80\n" \
    "cell=0 life=0 count=0 rain=50800 irrig=0 septic=1000 etmin=2000 pet=5000 amc=2 head=410c0000\n" \
    "cell=0 life=0 count=1 rain=0 irrig=0 septic=0 etmin=2000 pet=5000 amc=2 head=410c0000\n" \
    "cell=0 life=0 count=1 rain=0 irrig=0 septic=0 etmin=2000 pet=5000 amc=2 head=410c0000\n" \
    "cell=0 life=0 count=2 rain=50800 irrig=0 septic=0 etmin=2000 pet=5000 amc=2 head=410c0000\n" \
    "void cell=0 life=0 count=3\n"

/* A journal and its book. */
struct example {
    const char *name, *journal, *book;
};

static const struct example examples[] = {
    {"the example", CARD_LINE "\n" OTHER_LINES,
     "cell=0 code=0 inflow=51800 runoff=14287 etvad=2000 etstor=0 etsat=500 drain=0 release=0 stored=34513 recharge=500 left=34513\n"
     "cell=0 code=0 inflow=0 runoff=0 etvad=0 etstor=0 etsat=833 drain=0 release=34513 stored=0 recharge=33680 left=0\n"
     "cell=0 code=6 inflow=0 runoff=0 etvad=0 etstor=0 etsat=0 drain=0 release=0 stored=0 recharge=0 left=0\n"
     "cell=0 code=0 inflow=50800 runoff=14287 etvad=2000 etstor=0 etsat=500 drain=0 release=0 stored=34513 recharge=-500 left=34513\n"
     "cell=0 code=0 inflow=0 runoff=0 etvad=0 etstor=0 etsat=0 drain=0 release=34513 stored=0 recharge=34513 left=0\n"
     "steps=4 inflow=102600 runoff=28574 etvad=4000 etstor=0 etsat=1833 drain=0 release=69026 stored=69026 recharge=68193\n"},
    {"the example with a share of 5", CARD_LINE " share=5\n" OTHER_LINES,
     "cell=0 code=0 inflow=51800 runoff=20410 etvad=2000 etstor=0 etsat=500 drain=0 release=0 stored=28390 recharge=500 left=28390\n"
     "cell=0 code=0 inflow=0 runoff=0 etvad=0 etstor=0 etsat=833 drain=0 release=28390 stored=0 recharge=27557 left=0\n"
     "cell=0 code=6 inflow=0 runoff=0 etvad=0 etstor=0 etsat=0 drain=0 release=0 stored=0 recharge=0 left=0\n"
     "cell=0 code=0 inflow=50800 runoff=20410 etvad=2000 etstor=0 etsat=500 drain=0 release=0 stored=28390 recharge=-500 left=28390\n"
     "cell=0 code=0 inflow=0 runoff=0 etvad=0 etstor=0 etsat=0 drain=0 release=28390 stored=0 recharge=28390 left=0\n"
     "steps=4 inflow=102600 runoff=40820 etvad=4000 etstor=0 etsat=1833 drain=0 release=56780 stored=56780 recharge=55947\n"},
};

/* ---- the examples ---- */

/* A book that grows by a line at its end. */
struct page {
    uint8_t text[4096];
    size_t length;
};

/* A writer's number and length: the page grows by what was written. */
static uint32_t grown(struct page *page, uint32_t number, const size_t *got) {
    page->length += got[0];
    return number;
}

static uint32_t put_answer(struct page *page, uint32_t cell, uint32_t number, const int64_t *amounts) {
    size_t got[WATERBOOK_GOT];
    uint32_t written = waterbook_write_answer(cell, number, amounts, WATERBOOK_AMOUNTS, page->text + page->length,
                                              sizeof page->text - page->length, got, WATERBOOK_GOT);
    return grown(page, written, got);
}

static uint32_t put_sheet(struct page *page, const int64_t *sheet) {
    size_t got[WATERBOOK_GOT];
    uint32_t written = waterbook_write_sheet(sheet, WATERBOOK_SHEET, page->text + page->length,
                                             sizeof page->text - page->length, got, WATERBOOK_GOT);
    return grown(page, written, got);
}

/* A site: its card, soil numbers and stored rows, and its sheet. */
struct site {
    uint32_t card[WATERBOOK_CARD], rows[WATERBOOK_ROW * WATERBOOK_CELLS];
    int64_t soil[WATERBOOK_SOIL * WATERBOOK_CELLS], sheet[WATERBOOK_SHEET];
    size_t soil_len, rows_len;
};

/* One entry, a void or a reading: its number, its cell and its amounts; the bytes taken, or 0 where it is malformed. */
static size_t step_entry(struct site *site, const uint8_t *text, size_t text_len, uint32_t *number, uint32_t *cell,
                         int64_t *amounts) {
    uint32_t notice[WATERBOOK_NOTICE], reading[WATERBOOK_READING];
    size_t got[WATERBOOK_GOT];
    if (waterbook_read_void(text, text_len, notice, WATERBOOK_NOTICE, got, WATERBOOK_GOT) == WATERBOOK_ACCEPTED) {
        *cell = notice[0];
        *number = waterbook_void(site->card, WATERBOOK_CARD, site->soil, site->soil_len, site->rows, site->rows_len,
                                 notice, WATERBOOK_NOTICE, amounts, WATERBOOK_AMOUNTS);
        return got[0];
    }
    if (waterbook_read_reading(text, text_len, reading, WATERBOOK_READING, got, WATERBOOK_GOT) != WATERBOOK_ACCEPTED)
        return 0;
    *cell = reading[0];
    *number = waterbook_step(site->card, WATERBOOK_CARD, site->soil, site->soil_len, site->rows, site->rows_len,
                             reading, WATERBOOK_READING, amounts, WATERBOOK_AMOUNTS);
    return got[0];
}

/* One entry: its answer on the page and on the sheet; the bytes taken, or 0 where it is malformed or has no room. */
static size_t keep_entry(struct site *site, const uint8_t *text, size_t text_len, struct page *page) {
    uint32_t number, cell;
    int64_t amounts[WATERBOOK_AMOUNTS];
    size_t taken = step_entry(site, text, text_len, &number, &cell, amounts);
    if (taken == 0 || put_answer(page, cell, number, amounts) != WATERBOOK_ACCEPTED)
        return 0;
    /* A refused answer gets 11 and leaves the sheet as it was. */
    (void)waterbook_add(site->sheet, WATERBOOK_SHEET, number, amounts, WATERBOOK_AMOUNTS);
    return taken;
}

/* A whole journal by single calls: 0, or the number that stopped it. */
static uint32_t keep_book(struct site *site, const uint8_t *text, size_t text_len, struct page *page) {
    size_t got[WATERBOOK_GOT];
    memset(site->sheet, 0, sizeof site->sheet);
    uint32_t number = waterbook_read_card(text, text_len, site->card, WATERBOOK_CARD, site->soil,
                                          WATERBOOK_SOIL * WATERBOOK_CELLS, got, WATERBOOK_GOT);
    if (number != WATERBOOK_ACCEPTED)
        return number;
    size_t at = got[0];
    site->soil_len = WATERBOOK_SOIL * site->card[0];
    site->rows_len = WATERBOOK_ROW * site->card[0];
    number = waterbook_clear(site->card, WATERBOOK_CARD, site->rows, site->rows_len);
    while (number == WATERBOOK_ACCEPTED && at < text_len) {
        size_t taken = keep_entry(site, text + at, text_len - at, page);
        number = taken == 0 ? WATERBOOK_MALFORMED : WATERBOOK_ACCEPTED;
        at += taken;
    }
    return number == WATERBOOK_ACCEPTED ? put_sheet(page, site->sheet) : number;
}

/* Does collecting plot 0 give this runoff and drainage? */
static int gives(struct site *site, int64_t runoff, int64_t drainage) {
    uint64_t sums[WATERBOOK_SUMS];
    uint32_t number =
        waterbook_collect(site->card, WATERBOOK_CARD, site->rows, site->rows_len, 0, sums, WATERBOOK_SUMS);
    return number == WATERBOOK_ACCEPTED && sums[0] == (uint64_t)runoff && sums[1] == (uint64_t)drainage;
}

/* The rows of a site moved back to the form of version 3, into a slice for as many cells: the number. */
static uint32_t move_back(const struct site *site, uint32_t *old) {
    return waterbook_shrink(site->card, WATERBOOK_CARD, site->rows, site->rows_len, old,
                            WATERBOOK_OLD_ROW * site->card[0]);
}

/* A site of one plot is collected: what comes is what its sheet has, and nothing is left. Only then its rows go back,
 * and over again into a fresh slice they are the same. */
static int collects_and_moves(struct site *site) {
    static uint32_t old[WATERBOOK_OLD_ROW], rows[WATERBOOK_ROW];
    int64_t runoff = site->sheet[2], drainage = site->sheet[6];
    if (move_back(site, old) != WATERBOOK_NOT_COLLECTED || !gives(site, runoff, drainage) || !gives(site, 0, 0))
        return 0;
    if (move_back(site, old) != WATERBOOK_ACCEPTED ||
        waterbook_grow(site->card, WATERBOOK_CARD, old, WATERBOOK_OLD_ROW, rows, WATERBOOK_ROW) != WATERBOOK_ACCEPTED)
        return 0;
    printf("host.c: collected runoff=%" PRId64 " drainage=%" PRId64 ", moved back and over\n", runoff, drainage);
    return memcmp(rows, site->rows, sizeof rows) == 0;
}

/* Is this text the example's book? */
static int is_book(const struct example *example, const uint8_t *text, size_t length) {
    return length == strlen(example->book) && memcmp(text, example->book, length) == 0;
}

/* The book in one call must be the same text. */
static int same_in_one_call(const struct example *example) {
    size_t journal_len = strlen(example->journal), room = WATERBOOK_BOOK_ROOM(journal_len);
    uint8_t *buf = malloc(room);
    if (buf == NULL)
        return 0;
    size_t length = waterbook_book((const uint8_t *)example->journal, journal_len, buf, room);
    int same = is_book(example, buf, length);
    free(buf);
    return same;
}

/* Does the host keep the example's book? */
static int keeps(const struct example *example) {
    static struct page page;
    static struct site site;
    page.length = 0;
    uint32_t number = keep_book(&site, (const uint8_t *)example->journal, strlen(example->journal), &page);
    if (number != WATERBOOK_ACCEPTED) {
        fprintf(stderr, "host.c: %s was refused with %" PRIu32 "\n", example->name, number);
        return 0;
    }
    fwrite(page.text, 1, page.length, stdout);
    if (!is_book(example, page.text, page.length) || !same_in_one_call(example)) {
        fprintf(stderr, "host.c: the book should have been\n%s", example->book);
        return 0;
    }
    printf("host.c: the book of %s, by single calls and in one\n", example->name);
    if (!collects_and_moves(&site)) {
        fprintf(stderr, "host.c: it is not collected as its sheet says, or not moved back and over\n");
        return 0;
    }
    return 1;
}

/* ---- random calls ---- */

static int64_t any_signed(void) {
    int64_t number = (int64_t)roll();
    return number >> below(64);
}

/* Any card: in range mostly. */
static uint32_t *any_card(size_t count) {
    uint32_t *card = lend(count * sizeof *card);
    uint32_t delays = (uint32_t)below(31), depth = 0;
    for (size_t i = 0; i < count; i++) {
        if (i >= 2 && i < 2 + (size_t)delays)
            depth += 1 + (uint32_t)below(300000);
        card[i] = i == 0 ? 1 + (uint32_t)below(6) : i == 1 ? delays : i < 2 + (size_t)delays ? depth : 0;
    }
    if (count > WATERBOOK_SHARE_AT)
        card[WATERBOOK_SHARE_AT] = below(3) == 0 ? WATERBOOK_USUAL_SHARE : 5 + (uint32_t)below(16);
    if (count > 0 && below(12) == 0) {
        size_t place = below(count);
        card[place] = (uint32_t)any_number();
    }
    return card;
}

/* The cells of a card that is in order; 1 where it is not. */
static size_t cells_of(const uint32_t *card, size_t count) {
    return count > 0 && card[0] >= 1 && card[0] <= WATERBOOK_CELLS ? card[0] : 1;
}

static int64_t *any_soil(size_t count) {
    static const int64_t most[WATERBOOK_SOIL] = {2000000, 3000000, 999, 1000000, 99};
    static const int64_t least[WATERBOOK_SOIL] = {-1000000, 1, 1, 0, 1};
    int64_t *soil = lend(count * sizeof *soil);
    for (size_t i = 0; i < count; i++)
        soil[i] = least[i % 5] + (int64_t)below((uint64_t)most[i % 5]);
    if (count > 0 && below(12) == 0) {
        size_t place = below(count);
        soil[place] = any_signed();
    }
    return soil;
}

/* Put a sum into one of the rows: any in range, or one so near 10^18 that a step may pass it. */
static void any_sum(uint32_t *rows, size_t cells) {
    size_t place = WATERBOOK_ROW * below(cells);
    place += WATERBOOK_OLD_ROW + 2 * below(2);
    uint64_t sum = any_number() % 1000000000000000001u;
    if (below(2) == 0)
        sum = 1000000000000000000u - below(200000);
    rows[place] = (uint32_t)(sum >> 32);
    rows[place + 1] = (uint32_t)sum;
}

/* Rows with so many numbers per cell. */
static uint32_t *any_rows(size_t count, size_t width) {
    uint32_t *rows = lend(count * sizeof *rows);
    for (size_t i = 0; i < count; i++)
        rows[i] = i % width < 2 ? (uint32_t)below(3) : 0;
    if (count > 2 && below(2) == 0) {
        size_t place = 2 + below(count - 2);
        rows[place] = (uint32_t)below(2000001);
    }
    if (width == WATERBOOK_ROW && count >= width && below(3) == 0)
        any_sum(rows, count / width);
    if (count > 0 && below(12) == 0) {
        size_t place = below(count);
        rows[place] = (uint32_t)any_number();
    }
    return rows;
}

/* The head of a water table some metres around 0, dry, inactive, or any bits. */
static uint32_t any_head(void) {
    float metres = (float)((double)below(6000001) / 1000000.0 - 3.0);
    uint32_t bits;
    memcpy(&bits, &metres, sizeof bits);
    switch (below(12)) {
    case 0: return 0xf149f2ca;
    case 1: return 0x7149f2ca;
    case 2: return (uint32_t)roll();
    default: return bits;
    }
}

static uint32_t *any_reading(size_t count) {
    static const uint32_t most[WATERBOOK_READING] = {5, 2, 2, 200000, 50000, 20000, 3000, 9000, 2, 0};
    uint32_t *reading = lend(count * sizeof *reading);
    for (size_t i = 0; i < count; i++)
        reading[i] = i == 8 ? number_to(2) + 1 : i == 9 ? any_head() : number_to(most[i % 10]);
    return reading;
}

/* What a call takes or hands back as a record: a card, a reading, or the notice of a void. */
enum kind { CARD = WATERBOOK_CARD, READING = WATERBOOK_READING, NOTICE = WATERBOOK_NOTICE };

/* Any record of a kind; a notice is the first numbers of a reading. */
static uint32_t *any_record(enum kind kind, size_t count) {
    return kind == CARD ? any_card(count) : any_reading(count);
}

/* One reading, or one void. */
static void call_step(enum kind kind) {
    size_t card_len = count_of(WATERBOOK_CARD), entry_len = count_of(kind);
    size_t amounts_len = count_of(WATERBOOK_AMOUNTS);
    uint32_t *card = any_card(card_len), *entry = any_record(kind, entry_len), number;
    size_t soil_len = count_of(WATERBOOK_SOIL * cells_of(card, card_len));
    size_t rows_len = count_of(WATERBOOK_ROW * cells_of(card, card_len));
    int64_t *soil = any_soil(soil_len), *amounts = lend(amounts_len * sizeof *amounts);
    uint32_t *rows = any_rows(rows_len, WATERBOOK_ROW);
    /* The amounts come unset: the library must not look at them. */
    if (kind == NOTICE)
        number = waterbook_void(card, card_len, soil, soil_len, rows, rows_len, entry, entry_len, amounts, amounts_len);
    else
        number = waterbook_step(card, card_len, soil, soil_len, rows, rows_len, entry, entry_len, amounts, amounts_len);
    note(number, rows, rows_len * sizeof *rows);
    if (number != WATERBOOK_NOT_THE_COUNT)
        note(number, amounts, amounts_len * sizeof *amounts);
    free(card), free(entry), free(soil), free(rows), free(amounts);
}

static void call_clear(void) {
    size_t card_len = count_of(WATERBOOK_CARD);
    uint32_t *card = any_card(card_len);
    size_t rows_len = count_of(WATERBOOK_ROW * cells_of(card, card_len));
    uint32_t *rows = any_rows(rows_len, WATERBOOK_ROW);
    uint32_t number = waterbook_clear(card, card_len, rows, rows_len);
    note(number, rows, rows_len * sizeof *rows);
    free(card), free(rows);
}

static void call_collect(void) {
    size_t card_len = count_of(WATERBOOK_CARD), sums_len = count_of(WATERBOOK_SUMS);
    uint32_t *card = any_card(card_len), cell = number_to(5);
    size_t rows_len = count_of(WATERBOOK_ROW * cells_of(card, card_len));
    uint32_t *rows = any_rows(rows_len, WATERBOOK_ROW);
    uint64_t *sums = lend(sums_len * sizeof *sums);
    /* The sums come unset: the library must not look at them. */
    uint32_t number = waterbook_collect(card, card_len, rows, rows_len, cell, sums, sums_len);
    note(number, rows, rows_len * sizeof *rows);
    if (number != WATERBOOK_NOT_THE_COUNT)
        note(number, sums, sums_len * sizeof *sums);
    free(card), free(rows), free(sums);
}

/* A move over or back. Where rows are written something stands before, which must stay where the move is refused. */
static void call_move(int over) {
    size_t from = over ? WATERBOOK_OLD_ROW : WATERBOOK_ROW, to = over ? WATERBOOK_ROW : WATERBOOK_OLD_ROW;
    size_t card_len = count_of(WATERBOOK_CARD);
    uint32_t *card = any_card(card_len), number;
    size_t taken_len = count_of(from * cells_of(card, card_len)), written_len = count_of(to * cells_of(card, card_len));
    uint32_t *taken = any_rows(taken_len, from), *written = any_rows(written_len, to);
    if (over)
        number = waterbook_grow(card, card_len, taken, taken_len, written, written_len);
    else
        number = waterbook_shrink(card, card_len, taken, taken_len, written, written_len);
    note(number, written, written_len * sizeof *written);
    free(card), free(taken), free(written);
}

static void call_add(void) {
    size_t sheet_len = count_of(WATERBOOK_SHEET), amounts_len = count_of(WATERBOOK_AMOUNTS);
    int64_t *sheet = lend(sheet_len * sizeof *sheet), *amounts = lend(amounts_len * sizeof *amounts);
    for (size_t i = 0; i < sheet_len; i++)
        sheet[i] = (int64_t)below(1000);
    for (size_t i = 0; i < amounts_len; i++)
        amounts[i] = below(60) == 0 ? any_signed() : (int64_t)below(30000000001u);
    uint32_t answered = below(20) == 0 ? (uint32_t)below(17) : 0;
    uint32_t number = waterbook_add(sheet, sheet_len, answered, amounts, amounts_len);
    note(number, sheet, sheet_len * sizeof *sheet);
    free(sheet), free(amounts);
}

/* An example's journal from the first line of a kind on, cut short at times, with a byte or two changed at times. */
static uint8_t *any_text(enum kind kind, size_t *length) {
    const char *from = examples[below(2)].journal;
    if (kind != CARD)
        from = strstr(from, kind == NOTICE ? "void" : "cell=0");
    *length = strlen(from);
    if (below(4) == 0)
        *length = below(*length + 1);
    uint8_t *text = lend(*length);
    memcpy(text, from, *length);
    static const uint64_t changed[] = {0, 0, 0, 0, 1, 2};
    for (uint64_t changes = changed[below(6)]; *length > 0 && changes > 0; changes--) {
        size_t place = below(*length);
        text[place] = below(3) == 0 ? (uint8_t)roll() : (uint8_t)"0123456789 =-\n"[below(14)];
    }
    return text;
}

static void call_read(enum kind kind) {
    size_t text_len, numbers_len = count_of(kind);
    size_t soil_len = below(8), got_len = count_of(WATERBOOK_GOT);
    uint8_t *text = any_text(kind, &text_len);
    uint32_t *numbers = lend(numbers_len * sizeof *numbers), number;
    int64_t *soil = any_soil(soil_len);
    size_t *got = lend(got_len * sizeof *got);
    if (kind == CARD)
        number = waterbook_read_card(text, text_len, numbers, numbers_len, soil, soil_len, got, got_len);
    else if (kind == NOTICE)
        number = waterbook_read_void(text, text_len, numbers, numbers_len, got, got_len);
    else
        number = waterbook_read_reading(text, text_len, numbers, numbers_len, got, got_len);
    note(number, soil, soil_len * sizeof *soil);
    if (number != WATERBOOK_NOT_THE_COUNT) {
        note(number, numbers, numbers_len * sizeof *numbers);
        note(number, got, got_len * sizeof *got);
    }
    free(text), free(numbers), free(soil), free(got);
}

/* Take what a writer handed back, and its text, into the digest. */
static void note_written(uint32_t number, const size_t *got, size_t got_len, const uint8_t *buf) {
    if (number != WATERBOOK_NOT_THE_COUNT)
        note(number, got, got_len * sizeof *got);
    if (number == WATERBOOK_ACCEPTED)
        note(number, buf, got[0]);
}

static void call_write(enum kind kind) {
    size_t numbers_len = count_of(kind), got_len = count_of(WATERBOOK_GOT);
    uint32_t *numbers = any_record(kind, numbers_len), number;
    size_t soil_len = count_of(WATERBOOK_SOIL * (kind == CARD ? cells_of(numbers, numbers_len) : 1));
    size_t buf_len = below(kind == CARD ? 900 : kind == NOTICE ? 50 : 150);
    int64_t *soil = any_soil(soil_len);
    uint8_t *buf = lend(buf_len);
    size_t *got = lend(got_len * sizeof *got);
    if (kind == CARD)
        number = waterbook_write_card(numbers, numbers_len, soil, soil_len, buf, buf_len, got, got_len);
    else if (kind == NOTICE)
        number = waterbook_write_void(numbers, numbers_len, buf, buf_len, got, got_len);
    else
        number = waterbook_write_reading(numbers, numbers_len, buf, buf_len, got, got_len);
    note_written(number, got, got_len, buf);
    free(numbers), free(soil), free(buf), free(got);
}

/* Ten numbers of an answer or a sheet: in order mostly, now and then any. */
static int64_t *any_amounts(size_t count, int zeros) {
    int64_t *amounts = lend(count * sizeof *amounts);
    for (size_t i = 0; i < count; i++)
        amounts[i] = zeros ? 0 : (int64_t)(any_number() >> 1);
    if (count > 0 && below(8) == 0) {
        size_t place = below(count);
        amounts[place] = any_signed();
    }
    return amounts;
}

/* The line of an answer or a sheet. */
static void call_line(int of_answer) {
    size_t numbers_len = count_of(of_answer ? WATERBOOK_AMOUNTS : WATERBOOK_SHEET), got_len = count_of(WATERBOOK_GOT);
    uint32_t cell = number_to(255), answered = below(2) == 0 ? number_to(16) : 0, number;
    int64_t *numbers = any_amounts(numbers_len, of_answer && answered != 0 && below(4) != 0);
    size_t buf_len = below(2) == 0 ? below(300) : 300;
    uint8_t *buf = lend(buf_len);
    size_t *got = lend(got_len * sizeof *got);
    if (of_answer)
        number = waterbook_write_answer(cell, answered, numbers, numbers_len, buf, buf_len, got, got_len);
    else
        number = waterbook_write_sheet(numbers, numbers_len, buf, buf_len, got, got_len);
    note_written(number, got, got_len, buf);
    free(numbers), free(buf), free(got);
}

static void call_book(void) {
    size_t text_len;
    uint8_t *text = any_text(CARD, &text_len);
    size_t room = WATERBOOK_BOOK_ROOM(text_len) - (below(6) == 0 ? 1 + below(300) : 0);
    uint8_t *buf = lend(room);
    size_t length = waterbook_book(text, text_len, buf, room);
    note(length, buf, length);
    free(text), free(buf);
}

static void call_any(void) {
    switch (below(19)) {
    case 0: call_clear(); break;
    case 1: call_add(); break;
    case 2: call_read(CARD); break;
    case 3: call_read(READING); break;
    case 4: call_read(NOTICE); break;
    case 5: call_write(CARD); break;
    case 6: call_write(READING); break;
    case 7: call_write(NOTICE); break;
    case 8: call_book(); break;
    case 9: call_line(1); break;
    case 10: call_line(0); break;
    case 11: case 12: call_step(NOTICE); break;
    case 13: call_collect(); break;
    case 14: call_move(1); break;
    case 15: call_move(0); break;
    default: call_step(READING); break;
    }
}

int main(int argc, char **argv) {
    if (argc == 1)
        return keeps(&examples[0]) && keeps(&examples[1]) ? 0 : 1;
    if (argc != 3) {
        fputs("usage: host-c [SEED CALLS]\n", stderr);
        return 2;
    }
    make_calls("host.c", argv[1], argv[2], call_any);
    return 0;
}
