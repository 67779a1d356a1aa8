/* The outbox of one plot's node ("cell"): the proved static library libnode.a.
 *
 * Paths here are those of the water book's repository. `help/library.sh node` proves the library and writes
 * target/staticlib/libnode.a; a host in C is built by `cc -Inode/include host.c target/staticlib/libnode.a`.
 * node/hosts/host.c is one. node/install puts library and header below a prefix, for pkg-config's `outbox`.
 * docs/NEWCOMERS.md shows node and gateway at work together, gateway/STORING.md says when a gateway acknowledges.
 *
 * The archive is for x86-64 Linux, called as the System V convention of that machine says, with a size_t of 64 bits.
 * One for another platform is not written.
 *
 * A slice is a pointer and then a count of its elements. The pointer is never null and is aligned for its
 * element, also where the count is 0. Slices of one call do not overlap where one of them can be changed.
 * The library keeps nothing between calls, allocates nothing, and of a C library wants memcpy, memmove and
 * memset only: any number of threads may call it at once, each with slices of its own.
 *
 * A node makes an entry a day and keeps it until the gateway is heard to have accepted it. An acknowledgement is the
 * life and the next count that stand in the gateway's row of this plot, so it tells of all entries below that count.
 *
 * entry: 11 numbers.
 *    0  kind     0 a reading, 1 a void, which is the notice that a day's reading will never come
 *    1  cell     which plot, 0..255
 *    2  life     the battery's life, 0..65,535
 *    3  count    the entry's place in this life, 0..999,999
 *    4  rain     µm
 *    5  irrig    irrigation in µm
 *    6  septic   septic water in µm
 *    7  etmin    least plant use in µm
 *    8  pet      possible plant use in µm
 *    9  amc      moisture before the storm: 1 dry, 2 normal, 3 wet
 *   10  head     the 32 bits of a float: height of the water table in metres
 * Numbers 1..10 are the ten of a reading in gateway/include/waterbook.h, 1..3 the three of a notice; a void has 0 in
 * 4..10. Of a reading's 4..10 nothing is asked here, any 32 bits are kept as they are: it is the gateway that refuses
 * figures, with 8, 17, 9 or 10.
 *
 * box: 334 numbers; kept by the node from call to call, and over a change of battery.
 *    0        cell   which plot, 0..255
 *    1        life   the present one, 0..65,535
 *    2        next   the next unused count, 0..1,000,000
 *    3        held   how many entries it holds, 0..30, and at most next
 *    4..333   30 places of 11 numbers, place i from 4 + 11 x i on: the entries held, the oldest first, then zeros
 * It is in form where these ranges hold, each place below held has an entry (kind 0 or 1, a void with 0 in 4..10) of
 * the outbox's cell and life, place i the count next - held + i, and each place from held on has eleven zeros.
 * outbox_fresh makes it so, and every call keeps it so.
 *
 * The number that a call returns is one of enum outbox_number below. Each call tells the numbers that it can return in
 * the order in which they are looked at, and the first that applies is returned.
 */
#ifndef OUTBOX_H
#define OUTBOX_H

#include <stddef.h>
#include <stdint.h>

#ifdef __cplusplus
extern "C" {
#endif

/* The version, of this library alone. MAJOR rises where a call answers what it took before in another way, or where a
 * call, a width or a constant goes or changes its meaning: look at the host again. MINOR rises where a call or constant
 * comes, or a stack stated below grows: build the host again. PATCH rises where none of this is so, as for speed. */
#define OUTBOX_VERSION_MAJOR 1
#define OUTBOX_VERSION_MINOR 1
#define OUTBOX_VERSION_PATCH 2
#define OUTBOX_VERSION (1000000 * OUTBOX_VERSION_MAJOR + 1000 * OUTBOX_VERSION_MINOR + OUTBOX_VERSION_PATCH)

/* The number that a call returns. */
enum outbox_number {
    OUTBOX_DONE = 0,
    /* The outbox holds 30 entries: none is dropped for a new one. */
    OUTBOX_FULL = 13,
    /* The entry's cell, life or count is not the outbox's cell, life and next, or its count is above 999,999; a swap's
     * life is not above the present one, or above 65,535; a fresh outbox's cell is above 255. */
    OUTBOX_NOT_NEXT = 14,
    /* The outbox is out of form: what was kept is damaged. */
    OUTBOX_BAD_FORM = 23,
    /* The outbox holds nothing that could be offered or replaced. */
    OUTBOX_EMPTY = 254,
    /* A box slice has not 334 numbers, an entry slice not 11, or what is to be added is no entry: its kind is above 1,
     * or it is a void with a number other than 0 behind its first four. Looked at before all else; nothing is
     * changed. */
    OUTBOX_NOT_THE_SHAPE = 255
};

/* How many numbers a record has, and how many entries an outbox holds at most. */
enum {
    OUTBOX_BOX = 334,
    OUTBOX_ENTRY = 11,
    OUTBOX_HELD = 30
};

/* The kinds of an entry. */
enum {
    OUTBOX_READING = 0,
    OUTBOX_VOID = 1
};

/* The stack that each call needs in bytes, counted from the entry of a function that does nothing but the call.
 * In the repository, tests/stack measures it over the deepest inputs and runs each call on a stack of just this size.
 * A signal handler without a stack of its own comes on top, and a loader that looks up memcpy at its first use: link
 * with -z now, or statically. */
enum {
    OUTBOX_STACK_FRESH = 1664,
    OUTBOX_STACK_OFFER = 3264,
    OUTBOX_STACK_ADD = 4800,
    OUTBOX_STACK_REPLACE = 4800,
    OUTBOX_STACK_ACKNOWLEDGE = 4800,
    OUTBOX_STACK_SWAP = 4800
};

/* An empty outbox of that cell: life 0, next 0, nothing held, all places zero. What stood in box is not looked at.
 * Returns 255, 14 or 0; where it is not 0, box stays as it came. For the node's first day; after a damaged outbox (23)
 * only with a swap at once behind it, to a life above all that were used, since no life may be used twice. */
uint32_t outbox_fresh(uint32_t cell,
                      uint32_t *box, size_t box_len);

/* Puts the oldest entry into entry, to be sent; it stays in the outbox. What stood in entry is not looked at.
 * Returns 255, 23, 254 or 0. 23 or 254: entry holds eleven zeros. */
uint32_t outbox_offer(const uint32_t *box, size_t box_len,
                      uint32_t *entry, size_t entry_len);

/* Takes a new entry behind those held. Its cell, life and count are the outbox's cell, life and next, the first three
 * numbers of box. Returns 255, 23, 14, 13 or 0; where it is not 0, box stays as it came. Done (0): next and held are
 * one higher. After count 999,999 each entry gets 14 until a swap. */
uint32_t outbox_add(uint32_t *box, size_t box_len,
                    const uint32_t *entry, size_t entry_len);

/* Puts a void with the oldest entry's life and count in its place, where the gateway refuses its figures for good;
 * a void stays as it is. Returns 255, 23, 254 or 0; where it is not 0, box stays as it came. */
uint32_t outbox_replace(uint32_t *box, size_t box_len);

/* An acknowledgement: life and next count of the gateway's row. Of the outbox's life, above its oldest count and not
 * above its next, it removes just the entries whose count is below the named one; those that are left move up, and the
 * room is zero and is used again. Any other changes nothing: it is late, or was heard before. In an empty outbox
 * nothing is to be removed. Returns 255, 23 or 0; where it is not 0, box stays as it came. The outbox's own life and
 * next never change. */
uint32_t outbox_acknowledge(uint32_t *box, size_t box_len,
                            uint32_t life, uint32_t next);

/* A fresh battery: empties the outbox, heard or not, and starts the higher life at count 0.
 * Returns 255, 23, 14 or 0; where it is not 0, box stays as it came. */
uint32_t outbox_swap(uint32_t *box, size_t box_len,
                     uint32_t life);

#ifdef __cplusplus
}
#endif

#endif
