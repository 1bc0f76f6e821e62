/* The gust book's calls. Build the library with `wrapper/build-library` and link target/staticlib/libgustbook.a.
 *
 * All memory is the caller's. A book is a table of 16-bit words, 170 a page, 1 to 4,096 pages, and a small record.
 * Each call returns 0, or the number of the refusal; a refusal changes nothing (but see gust_load).
 * Numbers of a box and a gust are 32 bits wide: one that is out of range is refused by 2 or 3, never cut short.
 * What a call changes must overlap nothing else that is lent to the same call. Calls keep nothing between them:
 * two threads may call at once on different books, or ask, count and save on the same one.
 * No pointer may be null, but for a table or an image of length 0.
 *
 * A book whose words something else has changed is spoilt. Recording, counting, saving and loading look at all of it and
 * refuse it by 4. Asking looks only at the pages that it opens: it refuses by 4 what it meets there and cannot follow, and
 * otherwise answers by the words as they stand, so a spoilt book may answer wrongly. gust_count tells whether a book is
 * well-formed.
 *
 * Stack: asking and recording go down the book's levels, so what they need grows with its height. A book of records alone
 * has a handful of levels and needs a few KiB. The tallest that 4,096 pages can hold, and the tallest spoilt one, need less
 * than 1 MiB: this is measured by ./check, not proved. */
#ifndef GUSTBOOK_H
#define GUSTBOOK_H

#include <stddef.h>
#include <stdint.h>

#ifdef __cplusplus
extern "C" {
#endif

#define GUST_PAGE_WORDS 170
#define GUST_MOST_PAGES 4096
#define GUST_MOST_ROWS 32
/* The bytes of the image of a book of so many pages. */
#define GUST_IMAGE_BYTES(pages) (340 * (size_t)(pages) + 22)

enum gust_refusal {
    GUST_TABLE = 1,   /* the table is not 1 to 4,096 whole pages; loading: not as many as the image's */
    GUST_BOX = 2,     /* a low end above its high end, or a high end above its limit */
    GUST_GUST = 3,    /* a gust above 1,200 */
    GUST_DAMAGED = 4, /* the book is not well-formed; asking: a page that has to be opened cannot be */
    GUST_SPENT = 5,   /* 1,000,000 records were accepted */
    GUST_FULL = 6,    /* too few free pages */
    GUST_SIZE = 7,    /* an image, or a buffer to save into, of the wrong length */
    GUST_TRAILER = 8, /* an image with a wrong trailer */
    GUST_STRIP = 10,  /* a strip would have more than 1,024 segments */
    GUST_SHEET = 11   /* a sheet of more than 32 rows */
};

/* The small record. Keep it beside its table; only the calls change it. */
struct gust_small {
    uint32_t root, height, accepted, struck, covered;
};

/* A box of ground and days, both ends of each range inside: kilometre squares 0 to 4,095, days 0 to 58,438. */
struct gust_box {
    uint32_t east_low, east_high, north_low, north_high, day_low, day_high;
};

enum gust_outcome { GUST_KEPT = 0, GUST_CUT = 1, GUST_COVERED = 2 };

/* What became of a record, and how many held records it struck. */
struct gust_recorded {
    uint32_t outcome, struck;
};

/* any is 1 and gust the strongest gust that touches the box, or both are 0 for nothing; pages opened. */
struct gust_asked {
    uint32_t any, gust, pages;
};

/* A question on a sheet, and the places for its answer: the refusal's number or 0, and then as above; a refused
 * question's answer is all 0. */
struct gust_row {
    struct gust_box place;
    uint32_t refusal;
    struct gust_asked answer;
};

struct gust_counted {
    uint32_t accepted, held, struck, covered;
};

/* Makes the empty book. Refusal 1. */
uint32_t gust_clear(uint16_t *table, size_t words, struct gust_small *small);

/* Records a gust in tenths of a metre a second, 0 to 1,200. Refusals 1 to 6, in this order. */
uint32_t gust_record(uint16_t *table, size_t words, struct gust_small *small, const struct gust_box *place,
                     uint32_t gust, struct gust_recorded *answer);

/* The strongest gust that touches a box. Refusals 1, 2, 4, in this order. */
uint32_t gust_ask(const uint16_t *table, size_t words, const struct gust_small *small, const struct gust_box *place,
                  struct gust_asked *answer);

/* Fills each row's answer in, as gust_ask gives it; 1, 2 and 4 go into the row that they refuse, and the rest are still
 * answered. Refusal 11. */
uint32_t gust_ask_sheet(const uint16_t *table, size_t words, const struct gust_small *small, struct gust_row *rows,
                        size_t count);

/* Refusals 1, 4, in this order. */
uint32_t gust_count(const uint16_t *table, size_t words, const struct gust_small *small, struct gust_counted *answer);

/* Fills a buffer of exactly GUST_IMAGE_BYTES bytes. Refusals 1, 7, 4, in this order. */
uint32_t gust_save(const uint16_t *table, size_t words, const struct gust_small *small, uint8_t *image, size_t bytes);

/* Refusals 7, 1, 8, 4, in this order. One by 4 leaves the empty book, table and small record. */
uint32_t gust_load(const uint8_t *image, size_t bytes, uint16_t *table, size_t words, struct gust_small *small);

/* A strip: one site by days. Its segments part all days from 0 to the last, each with a gust or nothing, neighbours
 * unlike. It is lent as GUST_STRIP_WORDS words, of which the first `count` are in use: a word has the segment's last
 * day in its high half and its value in its low half, 0 for nothing and gust + 1 for a gust. Words not in use may hold
 * anything and are left alone. What is not such a parting, or has another number of words, is refused by 4. */
#define GUST_STRIP_WORDS 1024

/* A range of days, both ends inside. */
struct gust_days {
    uint32_t low, high;
};

/* any is 1 and gust the strongest gust of the days, or both are 0 for nothing. */
struct gust_strip_asked {
    uint32_t any, gust;
};

/* Makes the strip that is all nothing, whatever it held. Refusal 4, for another number of words. */
uint32_t gust_strip_clear(uint32_t *segments, size_t words, uint32_t *count);

/* Raises each of the days to the gust, if that is greater. Refusals 2, 3, 4, 10, in this order. */
uint32_t gust_strip_record(uint32_t *segments, size_t words, uint32_t *count, const struct gust_days *days,
                           uint32_t gust);

/* The strongest gust of the days. Refusals 2, 4, in this order. */
uint32_t gust_strip_ask(const uint32_t *segments, size_t words, uint32_t count, const struct gust_days *days,
                        struct gust_strip_asked *answer);

#ifdef __cplusplus
}
#endif

#endif
