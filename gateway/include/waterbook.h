/* The water book of a site of plots ("cells"): the proved static library libgateway.a.
 *
 * Paths here are those of the water book's repository. `help/library.sh gateway` proves the library and writes
 * target/staticlib/libgateway.a; a host in C is built by `cc -Igateway/include host.c target/staticlib/libgateway.a`.
 * gateway/hosts/host.c is one. gateway/install puts library and header below a prefix, for pkg-config's `waterbook`.
 * gateway/STORING.md says when a host stores and when it acknowledges, docs/JOURNAL.md how texts are written.
 *
 * The archive is for x86-64 Linux, called as the System V convention of that machine says, with a size_t of 64 bits.
 * One for another platform is not written.
 *
 * All water is in whole micrometres (µm) over a cell, per step. A height is in µm too, and is never water.
 *
 * A slice is a pointer and then a count of its elements. The pointer is never null and is aligned for its
 * element, also where the count is 0. Slices of one call do not overlap where one of them can be changed.
 * The library keeps nothing between calls, allocates nothing, and of a C library wants memcpy, memmove and
 * memset only: any number of threads may call it at once, each with slices of its own.
 *
 * card: 33 numbers.
 *    0        cells, 1..256
 *    1        delays M, 0..30
 *    2..31    delay depths 1..30 in µm, each 1..1,000,000,000; the first M strictly rising, the others 0
 *    32       share of storage that the first wetting takes, whole percent, 5..20; 20 where a card has none of its own
 *
 * soil: 5 numbers per cell, cell 0 first.
 *    0  top      height of the ground in µm, -10,000,000,000..10,000,000,000
 *    1  etdepth  depth to which plants reach the water table in µm, 1..100,000,000
 *    2  vadpor   share of the ground above the table that water can fill, in thousandths, 1..1000
 *    3  leak     share of standing water that drains in a step, in millionths, 0..1,000,000
 *    4  cn       curve number of the ground at normal moisture, 1..100
 *
 * rows: 36 numbers per cell, cell 0 first; kept by the host from call to call.
 *    0        life of the node's battery at the last accepted reading or void, 0..65,535
 *    1        next count: the count that is due, 0..1,000,000
 *    2..31    slots 1..30: slot k holds water in µm due in k accepted steps, at most 2,000,000 x (M - k + 1);
 *             slots above M hold 0
 *    32, 33   runoff since the last collection in µm, its high and its low 32 bits: together at most 10^18
 *    34, 35   drainage since the last collection in µm, likewise
 *
 * old rows: 32 numbers per cell, those at places 0..31 of a row: what version 3 kept. Only the two moves take them.
 *
 * reading: 10 numbers.
 *    0  cell     which plot, from 0
 *    1  life     the battery's life, 0..65,535
 *    2  count    the reading's place in this life, 0..999,999
 *    3  rain     µm, 0..1,000,000; above 600,000 the gauge's bucket is jammed
 *    4  irrig    irrigation in µm, 0..1,000,000
 *    5  septic   septic water in µm, 0..1,000,000
 *    6  etmin    least plant use in µm, 0..1,000,000, at most pet
 *    7  pet      possible plant use in µm, 0..1,000,000
 *    8  amc      moisture before the storm: 1 dry, 2 normal, 3 wet
 *    9  head     the 32 bits of a float: height of the water table in metres, at most 10,000 in size;
 *                f149f2ca means dry, 7149f2ca inactive
 *
 * notice: 3 numbers. A void is the notice that a day's reading will never come.
 *    0  cell     which plot, from 0
 *    1  life     the battery's life, 0..65,535
 *    2  count    the place in this life that it uses up, 0..999,999
 *
 * amounts: the 10 amounts of an answer, in µm. None but recharge is ever negative.
 *    0  inflow    rain + irrig + septic
 *    1  runoff    what runs off the plot
 *    2  etvad     what plants take of the day's water
 *    3  etstor    what plants take of the waiting water
 *    4  etsat     what plants take of the water table
 *    5  drain     what leaves a water table that stands above the ground
 *    6  release   waiting water that reaches the table in this step
 *    7  stored    water that starts to wait in this step
 *    8  recharge  net gain of the water table, signed
 *    9  left      all water that waits after the step
 *
 * sums: 2 numbers of 64 bits that collecting a cell hands back, in µm.
 *    0  runoff    the sum of the runoff of the cell's accepted readings since the last collection
 *    1  drainage  the sum of their drain
 *
 * sheet: 10 numbers. Ten zeros are an empty sheet.
 *    0     steps  accepted answers added, 0..100,000,000
 *    1..9  sums of inflow, runoff, etvad, etstor, etsat, drain, release, stored, recharge in µm
 *
 * got: 2 numbers that a reader or writer of text hands back.
 *    0  reader: bytes of text taken, 0 where refused;    writer: bytes written, 0 where refused
 *    1  reader: the malformed line of its text, from 1, 0 where none is;    writer: 0
 *
 * Texts: pairs key=value, each number in plain decimals without leading zeros (top and recharge may have a minus), the
 * head as 8 hex digits in small letters; one space between two pairs, one LF at each line's end. docs/JOURNAL.md in the
 * repository has it to the byte. The line of a card, of one with a share that is not 20 (so little rain runs off under
 * neither), of soil numbers, of a reading, of a void, of the answers to these two, and of the sheet then:
 *    cells=1 delays=2 depth=1000000 depth=2000000
 *    cells=1 delays=2 depth=1000000 depth=2000000 share=5
 *    top=10000000 etdepth=1500000 vadpor=200 leak=100000 cn=80
 *    cell=0 life=0 count=0 rain=2090 irrig=0 septic=0 etmin=2000 pet=5000 amc=2 head=410c0000
 *    void cell=0 life=0 count=1
 *    cell=0 code=0 inflow=2090 runoff=0 etvad=2000 etstor=0 etsat=500 drain=0 release=0 stored=90 recharge=-500 left=90
 *    cell=0 code=0 inflow=0 runoff=0 etvad=0 etstor=0 etsat=0 drain=0 release=90 stored=0 recharge=90 left=0
 *    steps=2 inflow=2090 runoff=0 etvad=2000 etstor=0 etsat=500 drain=0 release=90 stored=90 recharge=-410
 *
 * The number that a call returns is one of enum waterbook_number below.
 */
#ifndef WATERBOOK_H
#define WATERBOOK_H

#include <stddef.h>
#include <stdint.h>

#ifdef __cplusplus
extern "C" {
#endif

/* The version. MAJOR rises where a call answers what it took before in another way, or where a call, a width or a
 * constant goes or changes its meaning: look at the host again. MINOR rises where a call or constant comes, a text is
 * taken that was malformed before, or a room or stack stated below grows: build the host again. PATCH rises where none
 * of this is so, as for speed.
 *
 * From 4.x to 5.0.0 rain above 600,000 is turned away, with a number of its own. What a host of 4.x has to change:
 *   Know one number more: waterbook_step may return 17, for rain of 600,001..1,000,000, which it took before. The count
 *   stays open as with 8: hold the reading back for a person, as with 8.
 *   Where stored readings are stepped again, or an old journal is booked again, such a day gets 17 and the days after it
 *   7. Give a void, or the day as it should have been, in its place: gateway/STORING.md says how.
 * All else is as it was: cards, soil numbers, rows, amounts, sheets and texts, and every other answer. Rows that 4.x
 * stored are in range as they are. The Rust side has changed likewise.
 *
 * From 3.x to 4.0.0 a row got four numbers more, the two sums, at places 32 to 35. What a host of 3.x has to change:
 *   Move each site over once: lend waterbook_grow the stored rows, 32 x cells numbers, and a fresh slice of 36 x cells.
 *   Keep the old rows until it has returned 0 and the new ones are stored. Rows lent with 32 numbers a cell get 2 from
 *   each other call, and nothing is changed.
 *   For a plot more put 36 zeros at the end of the rows in place of 32.
 *   Know two numbers more: waterbook_step may return 15, waterbook_shrink 16. Collect each cell now and then.
 *   Give calls the stack that is stated below: some need more.
 * To go back to 3.x collect every cell, and keep the sums that come; then waterbook_shrink gives the very rows that 3.x
 * would have. All else is as it was: cards, soil numbers, readings, notices, amounts, sheets and texts have the same
 * numbers, and every answer is the same but where a sum would pass its limit. The Rust side has changed likewise.
 *
 * From 2.x to 3.0.0 the card got one number more, the share, at place 32. What a host of 2.x has to change besides:
 *   Lend 33 numbers as a card in place of 32, with 20 at place 32. A card lent with 32 gets 255, and nothing is changed;
 *   one with 33 and a 0 left there gets 1 from each call that looks at ranges, and is written with share=0.
 *   Put 20 behind the 32 numbers of each card that is stored.
 *   Give a card text 17 bytes more room, as WATERBOOK_CARD_TEXT does.
 * With 20 every answer is the same. A card text that was read before is read the same, with 20 at place 32, and a card
 * with 20 is written as before; a text with another share was malformed before. */
#define WATERBOOK_VERSION_MAJOR 5
#define WATERBOOK_VERSION_MINOR 1
#define WATERBOOK_VERSION_PATCH 2
#define WATERBOOK_VERSION \
    (1000000 * WATERBOOK_VERSION_MAJOR + 1000 * WATERBOOK_VERSION_MINOR + WATERBOOK_VERSION_PATCH)

/* The number that a call returns. */
enum waterbook_number {
    WATERBOOK_ACCEPTED = 0,
    /* The card is out of range, its share too, its depths do not rise, or an unused place is not 0. */
    WATERBOOK_BAD_CARD = 1,
    /* soil has not 5 x cells numbers (for reading a card: has fewer), rows has not 36 x cells, or a move's old rows not
     * 32 x cells. */
    WATERBOOK_BAD_LENGTHS = 2,
    /* The cell number is not below cells. */
    WATERBOOK_BAD_CELL = 3,
    /* A soil number of that cell is out of range. */
    WATERBOOK_BAD_SOIL = 4,
    /* That cell's row is out of range; for a move, any row of the site. */
    WATERBOOK_BAD_ROW = 5,
    /* Old: the life is lower, or the same with a count lower than next. */
    WATERBOOK_OLD = 6,
    /* Gap: the life is the same with a count higher than next, or higher with a count that is not 0. */
    WATERBOOK_GAP = 7,
    /* Another field of the reading is out of range, life and count included, or etmin is above pet; a void's life or
     * count is out of range. */
    WATERBOOK_BAD_READING = 8,
    /* The head is no number, or above 10,000 m in size and is neither mark. */
    WATERBOOK_UNUSABLE_HEAD = 9,
    /* The head is marked inactive. */
    WATERBOOK_INACTIVE_HEAD = 10,
    /* The answer cannot be added to the sheet. */
    WATERBOOK_NOT_ADDABLE = 11,
    /* The text is malformed, or there is nothing that can be written. */
    WATERBOOK_MALFORMED = 12,
    /* The cell's runoff or drainage would pass 10^18 µm since it was last collected: collect it, and step again. */
    WATERBOOK_SUM_FULL = 15,
    /* A sum of the site is not 0: before a move back, every cell is to be collected. */
    WATERBOOK_NOT_COLLECTED = 16,
    /* The reading's rain is above 600,000 µm, and no field is out of range: the gauge's bucket is jammed. */
    WATERBOOK_JAMMED_BUCKET = 17,
    /* A card, reading, notice, amounts, sums, sheet or got slice has another count of numbers than its own; nothing is
     * changed. */
    WATERBOOK_NOT_THE_COUNT = 255
};

/* How many numbers a record has; soil, rows and old rows have so many per cell. */
enum {
    WATERBOOK_CARD = 33,
    WATERBOOK_SOIL = 5,
    WATERBOOK_ROW = 36,
    WATERBOOK_OLD_ROW = 32,
    WATERBOOK_SUMS = 2,
    WATERBOOK_READING = 10,
    WATERBOOK_NOTICE = 3,
    WATERBOOK_AMOUNTS = 10,
    WATERBOOK_SHEET = 10,
    WATERBOOK_GOT = 2,
    /* The most cells, and so the most lines of soil numbers, that a card can have. */
    WATERBOOK_CELLS = 256,
    /* The longest journal that a book is kept of, in bytes. */
    WATERBOOK_LONGEST = 65536
};

/* The card's share. */
enum {
    /* Its place on the card. */
    WATERBOOK_SHARE_AT = 32,
    /* The share of a card that has none of its own. */
    WATERBOOK_USUAL_SHARE = 20
};

/* The longest text of each kind in bytes, every number at its longest: a buffer of so many is never too short. */
enum {
    /* The card text of 256 cells and 30 delays. */
    WATERBOOK_CARD_TEXT = 24099,
    /* The line of a reading, of a void, of an answer, of a sheet. */
    WATERBOOK_READING_TEXT = 161,
    WATERBOOK_VOID_TEXT = 54,
    WATERBOOK_ANSWER_TEXT = 292,
    WATERBOOK_SHEET_TEXT = 270
};

/* The stack that each call needs in bytes, counted from the entry of a function that does nothing but the call.
 * In the repository, tests/stack measures it over the deepest inputs and runs each call on a stack of just this size.
 * What comes on top:
 *   a thread of the C library keeps data of its own in its stack: give it PTHREAD_STACK_MIN more, as tests/stack does;
 *   a signal handler without a stack of its own runs on this one;
 *   a loader that looks up memcpy at its first use works here too, with 3,152 bytes where that was measured: link with
 *   -z now, or statically. */
enum {
    WATERBOOK_STACK_STEP = 832,
    WATERBOOK_STACK_VOID = 832,
    WATERBOOK_STACK_CLEAR = 208,
    WATERBOOK_STACK_COLLECT = 240,
    WATERBOOK_STACK_GROW = 320,
    WATERBOOK_STACK_SHRINK = 256,
    WATERBOOK_STACK_ADD = 184,
    WATERBOOK_STACK_READ_CARD = 800,
    WATERBOOK_STACK_WRITE_CARD = 1216,
    WATERBOOK_STACK_READ_READING = 368,
    WATERBOOK_STACK_WRITE_READING = 544,
    WATERBOOK_STACK_READ_VOID = 192,
    WATERBOOK_STACK_WRITE_VOID = 464,
    WATERBOOK_STACK_WRITE_ANSWER = 960,
    WATERBOOK_STACK_WRITE_SHEET = 912,
    WATERBOOK_STACK_BOOK = 49152
};

/* The room in bytes that the book of a journal of so many bytes needs. */
#define WATERBOOK_BOOK_ROOM(journal_len) (5 * (size_t)(journal_len) + 300)

/* One reading of the site. Returns 0..10, 15, 17 or 255: 255 is looked at first, then 1 to 8 in this order, then 17, 9
 * and 10, last 15, and the first that applies is returned. So a life or count out of range that is a gap as well gives
 * 7, and rain above 1,000,000 gives 8.
 * Accepted (0): the row of the reading's cell is the row after the step, its runoff and its drain added to the sums, no
 * other number of rows changes, and amounts holds the ten amounts. Refused (1..10, 15, 17): rows stays as it came
 * and amounts holds ten zeros.
 * A reading refused with 8, 17, 9 or 10 does not use up its count: a corrected one may follow, or a void. Nor does one
 * refused with 15: once its cell is collected, it is accepted as it is. */
uint32_t waterbook_step(const uint32_t *card, size_t card_len,
                        const int64_t *soil, size_t soil_len,
                        uint32_t *rows, size_t rows_len,
                        const uint32_t *reading, size_t reading_len,
                        int64_t *amounts, size_t amounts_len);

/* One void of the site, in place of a reading that will never come. Returns 0..8 or 255, in the order of
 * waterbook_step; 8 is looked at for life and count only, so a void in order, its life and count in range, is accepted
 * whatever the day was.
 * Accepted (0): the waiting water of the notice's cell moves on by one step, release is what was due, recharge is the
 * release, left is what still waits, all other amounts are 0; the row has the notice's life and count + 1, its sums are
 * as they were, and no other row changes. It is a step like any other: waterbook_add takes its answer.
 * Refused (1..8): rows stays as it came and amounts holds ten zeros. */
uint32_t waterbook_void(const uint32_t *card, size_t card_len,
                        const int64_t *soil, size_t soil_len,
                        uint32_t *rows, size_t rows_len,
                        const uint32_t *notice, size_t notice_len,
                        int64_t *amounts, size_t amounts_len);

/* Sets all rows of the site to 0, sums too, as they must be before the first reading or void. Returns 0, 1, 2 or 255;
 * where it is not 0, rows stays as it came. */
uint32_t waterbook_clear(const uint32_t *card, size_t card_len,
                         uint32_t *rows, size_t rows_len);

/* Collects a cell: its runoff and its drainage since the last collection. Returns 0, 1, 2, 3, 5 or 255, in the order of
 * waterbook_step; 5 is looked at for that cell's row only.
 * Accepted (0): sums holds both, in the row they are 0 from then on, and no other number of rows changes: lives, counts
 * and waiting water stay. Refused (1, 2, 3, 5): rows stays as it came and sums holds two zeros.
 * From cleared rows, or rows moved over, what was collected of a cell and what its row still holds come to the runoff
 * and the drain of all its accepted readings. A step adds at most 2,000,000 µm of runoff and 20,000,000,000 of drain:
 * no 15 comes in the first 50,000,000 steps after a collection. */
uint32_t waterbook_collect(const uint32_t *card, size_t card_len,
                           uint32_t *rows, size_t rows_len,
                           uint32_t cell,
                           uint64_t *sums, size_t sums_len);

/* Moves a site over from the rows of version 3: writes rows, each old row with both sums at 0 behind it. Returns 0, 1,
 * 2 (either slice), 5 (any row, all of them looked at before a number is written) or 255; where it is not 0, rows stays
 * as it came. Once for a site: a second time, from the same old rows, the steps made since are lost. */
uint32_t waterbook_grow(const uint32_t *card, size_t card_len,
                        const uint32_t *old, size_t old_len,
                        uint32_t *rows, size_t rows_len);

/* Moves a site back: writes old, each row without its sums; after waterbook_grow these are the very rows that it took.
 * Returns 0, 1, 2 (either slice), 5 (any row), 16 or 255, in this order, all of it looked at before a number is
 * written; where it is not 0, old stays as it came. 16: a sum of the site is not 0; collect every cell first. */
uint32_t waterbook_shrink(const uint32_t *card, size_t card_len,
                          const uint32_t *rows, size_t rows_len,
                          uint32_t *old, size_t old_len);

/* Adds an answer, its number and its amounts, to a sheet. Returns 0, 11 or 255; where it is not 0, the sheet
 * stays as it came. 11: the number is not 0; the sheet has 100,000,000 steps or more; an amount, a sum or the
 * steps negative (recharge excepted); an amount above 30,000,000,000 in size; a sum above
 * 30,000,000,000 x steps in size. */
uint32_t waterbook_add(int64_t *sheet, size_t sheet_len, uint32_t number,
                       const int64_t *amounts, size_t amounts_len);

/* Reads a card text: the card's line and a line of soil numbers per cell, each with its LF; nothing after
 * them is looked at. Returns 0, 12, 2 or 255. Accepted: card, the first 5 x cells numbers of soil (no others),
 * and the bytes taken. Refused (12, 2): card holds zeros, soil stays as it came, no bytes are taken, and got
 * tells the malformed line (0 with number 2). cells outside 1..256 or delays above 30 are malformed (12, line 1); all
 * other ranges are left to the step, that of the share too. A text without a share gives 20, and share=20 written out
 * is malformed (12, line 1). */
uint32_t waterbook_read_card(const uint8_t *text, size_t text_len,
                             uint32_t *card, size_t card_len,
                             int64_t *soil, size_t soil_len,
                             size_t *got, size_t got_len);

/* Writes a card text at the start of buf; no byte after it changes. Returns 0, 12, 2 or 255, in the order:
 * a card that no text gives (12), soil not 5 x cells long (2), a soil number that does not fit its text (12),
 * buf too short (12). Where it is not 0, buf stays as it came. No text gives a card with cells outside 1..256,
 * delays above 30, or an unused place that is not 0. Any share is written but 20, which is left out. A soil number but
 * top fits where it is 0..4,294,967,295. */
uint32_t waterbook_write_card(const uint32_t *card, size_t card_len,
                              const int64_t *soil, size_t soil_len,
                              uint8_t *buf, size_t buf_len,
                              size_t *got, size_t got_len);

/* Reads the line of one reading with its LF; nothing after it is looked at. Returns 0, 12 or 255.
 * Refused (12): reading holds zeros, no bytes are taken, the malformed line is 1. */
uint32_t waterbook_read_reading(const uint8_t *text, size_t text_len,
                                uint32_t *reading, size_t reading_len,
                                size_t *got, size_t got_len);

/* Writes the line of a reading, any ten numbers, at the start of buf; no byte after it changes.
 * Returns 0, 12 (buf too short, and it stays as it came) or 255. */
uint32_t waterbook_write_reading(const uint32_t *reading, size_t reading_len,
                                 uint8_t *buf, size_t buf_len,
                                 size_t *got, size_t got_len);

/* Reads the line of one void with its LF; nothing after it is looked at. Returns 0, 12 or 255.
 * Refused (12): notice holds zeros, no bytes are taken, the malformed line is 1. No text is both a reading and a
 * void. */
uint32_t waterbook_read_void(const uint8_t *text, size_t text_len,
                             uint32_t *notice, size_t notice_len,
                             size_t *got, size_t got_len);

/* Writes the line of a void, any three numbers, at the start of buf; no byte after it changes.
 * Returns 0, 12 (buf too short, and it stays as it came) or 255. */
uint32_t waterbook_write_void(const uint32_t *notice, size_t notice_len,
                              uint8_t *buf, size_t buf_len,
                              size_t *got, size_t got_len);

/* Writes the line that waterbook prints for an answer: the entry's cell, the number that the step returned and its
 * amounts. It goes to the start of buf, and no byte after it changes. Returns 0, 12 or 255. 12, with buf as it came:
 * buf is too short, or no step gives such an answer, since the number is neither 0..10 nor 15 nor 17, or it is not 0
 * and an amount is not 0 either, or an amount but recharge is negative. */
uint32_t waterbook_write_answer(uint32_t cell, uint32_t number,
                                const int64_t *amounts, size_t amounts_len,
                                uint8_t *buf, size_t buf_len,
                                size_t *got, size_t got_len);

/* Writes the line that waterbook prints for a sheet, at the start of buf; no byte after it changes. Returns 0, 12 or
 * 255. 12, with buf as it came: the steps or a sum but recharge is negative, or buf is too short. */
uint32_t waterbook_write_sheet(const int64_t *sheet, size_t sheet_len,
                               uint8_t *buf, size_t buf_len,
                               size_t *got, size_t got_len);

/* Writes at the start of buf all that the program waterbook prints for this journal (a card text, then readings
 * and voids), and returns its length; no byte after it changes. A buf with less room than
 * WATERBOOK_BOOK_ROOM(journal_len) stays as it came, and 0 is returned; a book is never empty. The book of a journal
 * with more than WATERBOOK_LONGEST bytes is `code=12 line=0`, and of one whose card is refused with 1, `code=1`. */
size_t waterbook_book(const uint8_t *journal, size_t journal_len,
                      uint8_t *buf, size_t buf_len);

#ifdef __cplusplus
}
#endif

#endif
