/* A host in C: days of a plot's node through the proved outbox, with nothing of the gateway's book.
 * node-c               the days
 * node-c SEED CALLS    so many random calls, wrong shapes and damaged outboxes among them; for valgrind */
#include <inttypes.h>
#include <stdio.h>
#include <stdlib.h>
#include <string.h>

#include "../../gateway/hosts/dice.h"
#include "outbox.h"

/* ---- the days ---- */

static uint32_t box[OUTBOX_BOX]; /* what the node keeps */
static int failed;

/* What must be so on these days. */
static void must(int so, const char *words) {
    if (!so) {
        fprintf(stderr, "node host.c: it should be so: %s\n", words);
        failed = 1;
    }
}

/* An entry with the outbox's cell, life and next count; rain counts for a reading only. */
static uint32_t add(uint32_t kind, uint32_t rain) {
    uint32_t entry[OUTBOX_ENTRY] = {kind, box[0], box[1], box[2]};
    static const uint32_t figures[] = {0, 0, 2000, 5000, 2, 0x410c0000};
    if (kind == OUTBOX_READING) {
        entry[4] = rain;
        memcpy(entry + 5, figures, sizeof figures);
    }
    return outbox_add(box, OUTBOX_BOX, entry, OUTBOX_ENTRY);
}

static uint32_t acknowledge(uint32_t life, uint32_t next) { return outbox_acknowledge(box, OUTBOX_BOX, life, next); }

/* Is the entry to be sent of this kind, life and count, with this rain? */
static int offers(uint32_t kind, uint32_t life, uint32_t count, uint32_t rain) {
    uint32_t entry[OUTBOX_ENTRY];
    uint32_t number = outbox_offer(box, OUTBOX_BOX, entry, OUTBOX_ENTRY);
    return number == OUTBOX_DONE && entry[0] == kind && entry[1] == 7 && entry[2] == life && entry[3] == count &&
           entry[4] == rain;
}

/* Does the outbox say that it is empty, to an offer and to a replacement? */
static int is_empty(void) {
    uint32_t entry[OUTBOX_ENTRY];
    return outbox_offer(box, OUTBOX_BOX, entry, OUTBOX_ENTRY) == OUTBOX_EMPTY &&
           outbox_replace(box, OUTBOX_BOX) == OUTBOX_EMPTY;
}

/* Three days of rain: sent until they are heard, in any order of acknowledgements. */
static void days_that_are_heard(void) {
    must(outbox_fresh(7, box, OUTBOX_BOX) == OUTBOX_DONE && is_empty(), "a fresh outbox is empty");
    for (uint32_t day = 0; day < 3; day++)
        must(add(OUTBOX_READING, 1000 + day) == OUTBOX_DONE, "a day's reading is taken");
    must(offers(OUTBOX_READING, 0, 0, 1000), "the oldest is offered");
    must(offers(OUTBOX_READING, 0, 0, 1000), "it is offered again until it is heard");
    must(acknowledge(0, 2) == OUTBOX_DONE && offers(OUTBOX_READING, 0, 2, 1002), "two days are heard at once");
    must(acknowledge(0, 1) == OUTBOX_DONE && acknowledge(0, 2) == OUTBOX_DONE && box[3] == 1, "a late one says nothing");
    must(acknowledge(1, 3) == OUTBOX_DONE && acknowledge(0, 4) == OUTBOX_DONE && box[3] == 1,
         "one of another life, or ahead of the node, says nothing");
}

/* A frozen gauge: the gateway refuses its reading, and a void stands in for it. */
static void day_that_is_replaced(void) {
    must(outbox_replace(box, OUTBOX_BOX) == OUTBOX_DONE && offers(OUTBOX_VOID, 0, 2, 0), "a void takes its place");
    must(outbox_replace(box, OUTBOX_BOX) == OUTBOX_DONE && offers(OUTBOX_VOID, 0, 2, 0), "a void stays a void");
    must(acknowledge(0, 3) == OUTBOX_DONE && is_empty(), "the void is heard");
}

/* The link is down for a month: nothing is dropped, and once it is up all goes. */
static void month_without_link(void) {
    for (uint32_t day = 0; day < OUTBOX_HELD; day++)
        must(add(day % 9 == 8 ? OUTBOX_VOID : OUTBOX_READING, day) == OUTBOX_DONE, "30 days have room");
    must(add(OUTBOX_READING, 0) == OUTBOX_FULL && box[2] == 33, "the day after has none, and no count");
    must(acknowledge(0, 4) == OUTBOX_DONE && add(OUTBOX_VOID, 0) == OUTBOX_DONE, "room is used again");
    must(acknowledge(0, 34) == OUTBOX_DONE && is_empty(), "all is heard");
}

/* A fresh battery, and what is refused. */
static void day_of_the_battery(void) {
    static uint32_t kept[OUTBOX_BOX];
    must(add(OUTBOX_READING, 5) == OUTBOX_DONE, "a reading that will not be heard");
    must(outbox_swap(box, OUTBOX_BOX, 0) == OUTBOX_NOT_NEXT, "a life is not used again");
    must(outbox_swap(box, OUTBOX_BOX, 1) == OUTBOX_DONE && is_empty(), "a fresh battery starts empty");
    must(add(OUTBOX_READING, 6) == OUTBOX_DONE && offers(OUTBOX_READING, 1, 0, 6), "its first count is 0");
    must(acknowledge(0, 1) == OUTBOX_DONE && box[3] == 1, "the old life's acknowledgement says nothing");
    memcpy(kept, box, sizeof box);
    box[4 + 3] = 1;
    must(add(OUTBOX_READING, 7) == OUTBOX_BAD_FORM, "a damaged outbox is refused");
    box[4 + 3] = 0;
    must(outbox_replace(box, OUTBOX_BOX - 1) == OUTBOX_NOT_THE_SHAPE, "a shorter one is none");
    must(memcmp(kept, box, sizeof box) == 0, "what is refused changes nothing");
}

static int days(void) {
    days_that_are_heard();
    day_that_is_replaced();
    month_without_link();
    day_of_the_battery();
    if (!failed)
        puts("node host.c: a node's days, heard, replaced, without a link, and with a fresh battery");
    return failed;
}

/* ---- random calls ---- */

/* A count that is used: small, just below the last one, or any. */
static uint32_t any_count(void) {
    uint64_t kind = below(4), some = below(40);
    return (uint32_t)(kind == 0 ? 1000000 - some : kind == 1 ? below(1000001) : some);
}

/* Any figure: small, or all bits. */
static uint32_t any_figure(void) {
    uint32_t figure = (uint32_t)any_number();
    return below(8) == 0 ? 0 : figure;
}

/* An entry with these three numbers: a reading, or a void now and then. */
static void put_entry(uint32_t *entry, size_t count, const uint32_t *turn) {
    uint32_t kind = below(3) == 0 ? OUTBOX_VOID : OUTBOX_READING;
    for (size_t i = 0; i < count; i++)
        entry[i] = i == 0 ? kind : i < 4 ? turn[i - 1] : kind == OUTBOX_VOID ? 0 : any_figure();
}

/* Any outbox: in form mostly, of any filling. */
static uint32_t *any_box(size_t count) {
    uint32_t *numbers = lend(count * sizeof *numbers);
    uint32_t cell = number_to(255), life = number_to(65535), next = any_count();
    uint32_t filled = (uint32_t)(below(4) == 0 ? OUTBOX_HELD : below(OUTBOX_HELD + 1));
    uint32_t first[4] = {cell, life, next, filled < next ? filled : next};
    memset(numbers, 0, count * sizeof *numbers);
    memcpy(numbers, first, (count < 4 ? count : 4) * sizeof *numbers);
    for (uint32_t i = 0; i < first[3] && 4 + OUTBOX_ENTRY * (i + 1) <= count; i++) {
        uint32_t turn[3] = {cell, life, next - first[3] + i};
        put_entry(numbers + 4 + OUTBOX_ENTRY * i, OUTBOX_ENTRY, turn);
    }
    if (count > 0 && below(10) == 0) {
        size_t place = below(3) == 0 ? below(count < 4 ? count : 4) : below(count);
        numbers[place] = (uint32_t)any_number();
    }
    return numbers;
}

/* An entry for this outbox: the next one mostly. */
static uint32_t *any_entry(const uint32_t *numbers, size_t box_len, size_t count) {
    static const uint32_t zeros[3];
    uint32_t *entry = lend(count * sizeof *entry);
    put_entry(entry, count, box_len < 3 ? zeros : numbers);
    if (count > 0 && below(5) == 0) {
        size_t place = below(count < 4 ? count : 4);
        entry[place] = below(2) == 0 ? entry[place] + 1 : (uint32_t)any_number();
    }
    return entry;
}

static void call_fresh(void) {
    size_t box_len = count_of(OUTBOX_BOX);
    uint32_t cell = below(4) == 0 ? (uint32_t)any_number() : number_to(257);
    /* The outbox comes unset, and so does an offer's entry: the library must not look at them. */
    uint32_t *fresh = lend(box_len * sizeof *fresh);
    uint32_t number = outbox_fresh(cell, fresh, box_len);
    note(number, fresh, number == OUTBOX_DONE ? box_len * sizeof *fresh : 0);
    free(fresh);
}

static void call_offer(void) {
    size_t box_len = count_of(OUTBOX_BOX), entry_len = count_of(OUTBOX_ENTRY);
    uint32_t *numbers = any_box(box_len), *entry = lend(entry_len * sizeof *entry);
    uint32_t number = outbox_offer(numbers, box_len, entry, entry_len);
    note(number, numbers, box_len * sizeof *numbers);
    note(number, entry, number != OUTBOX_NOT_THE_SHAPE ? entry_len * sizeof *entry : 0);
    free(numbers), free(entry);
}

static void call_add(void) {
    size_t box_len = count_of(OUTBOX_BOX), entry_len = count_of(OUTBOX_ENTRY);
    uint32_t *numbers = any_box(box_len), *entry = any_entry(numbers, box_len, entry_len);
    uint32_t number = outbox_add(numbers, box_len, entry, entry_len);
    note(number, numbers, box_len * sizeof *numbers);
    free(numbers), free(entry);
}

/* The three calls that have but an outbox and a number or two: a replacement, an acknowledgement, a swap. */
static void call_with(int kind) {
    size_t box_len = count_of(OUTBOX_BOX);
    uint32_t *numbers = any_box(box_len), number;
    uint32_t life = box_len > 1 ? numbers[1] : 0, next = box_len > 2 ? numbers[2] : 0;
    life = below(4) == 0 ? number_to(65540) : life + (kind == 2 ? (uint32_t)below(3) : 0);
    next = below(8) == 0 ? (uint32_t)any_number() : next + 2 - (uint32_t)below(36);
    if (kind == 0)
        number = outbox_replace(numbers, box_len);
    else if (kind == 1)
        number = outbox_acknowledge(numbers, box_len, life, next);
    else
        number = outbox_swap(numbers, box_len, life);
    note(number, numbers, box_len * sizeof *numbers);
    free(numbers);
}

static void call_any(void) {
    switch (below(8)) {
    case 0: call_fresh(); break;
    case 1: call_offer(); break;
    case 2: case 3: call_add(); break;
    case 4: call_with(0); break;
    case 5: case 6: call_with(1); break;
    default: call_with(2); break;
    }
}

int main(int argc, char **argv) {
    if (argc == 1)
        return days();
    if (argc != 3) {
        fputs("usage: node-c [SEED CALLS]\n", stderr);
        return 2;
    }
    make_calls("node host.c", argv[1], argv[2], call_any);
    return 0;
}
