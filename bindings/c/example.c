/* Posts the three batches of the worked case, tidies the table, and shows answers, refusals and the nearest stamps. */
#include <inttypes.h>
#include <stdio.h>

#include "futtockram.h"

#define SLOTS 15u

static uint32_t table[FTK_WORDS(SLOTS)];
static const size_t words = FTK_WORDS(SLOTS);

static void show(const char *what, const uint64_t out[FTK_NUMBERS])
{
    printf("%-16s code=%" PRIu64 " change=%" PRIu64 " value=%" PRIu64 " more=%" PRIu64 " kind=%" PRIu64 "\n", what,
           out[FTK_CODE], out[FTK_CHANGE], out[FTK_VALUE], out[FTK_MORE], out[FTK_KIND]);
}

/* The stamps on each side of one that is not there, as find, amend and drop tell them with code 5; 0 is none. */
static void nearest(const uint64_t out[FTK_NUMBERS])
{
    if (out[FTK_VALUE] != 0)
        printf("  nearest before: %" PRIu64 "\n", out[FTK_VALUE]);
    if (out[FTK_MORE] != 0)
        printf("  nearest after: %" PRIu64 "\n", out[FTK_MORE]);
}

/* The records in key order, by rank. */
static void list(void)
{
    uint64_t out[FTK_NUMBERS];
    for (uint32_t r = 1; r <= table[FTK_HEADER_RECORDS]; r++) {
        ftk_rank(table, words, r, out);
        uint32_t k = (uint32_t)out[FTK_VALUE];
        printf("  slot %" PRIu32 ": key %" PRIu32 ", %" PRIu32 " pieces, %s\n", k, table[FTK_WORD(k, FTK_KEY)],
               table[FTK_WORD(k, FTK_PIECES)], table[FTK_WORD(k, FTK_STATE)] == FTK_POURED ? "poured" : "remelt");
    }
}

int main(void)
{
    uint64_t out[FTK_NUMBERS];

    ftk_start(table, words, out);
    show("start", out);
    ftk_post(table, words, 480, 1200, FTK_POURED, out);
    show("post 480", out);
    ftk_post(table, words, 510, 900, FTK_POURED, out);
    show("post 510", out);
    ftk_post(table, words, 540, 750, FTK_POURED, out);
    show("post 540", out);
    ftk_post(table, words, 540, 1, FTK_REMELT, out);
    show("post 540 again", out);

    ftk_worth(table, words, out);
    show("worth", out);
    ftk_fire(table, words, 2, 0, FTK_SIDE_LEFT, out);
    show("fire 2 at root", out);
    ftk_fire(table, words, 3, 0, FTK_SIDE_LEFT, out);
    show("fire 3 at root", out);
    ftk_tidy(table, words, 10, out);
    show("tidy 10", out);
    ftk_worth(table, words, out);
    show("worth", out);

    ftk_find(table, words, 511, out); /* a minute out */
    show("find 511", out);
    nearest(out);
    ftk_amend(table, words, 541, 600, FTK_REMELT, out); /* a minute out, after the last */
    show("amend 541", out);
    nearest(out);

    ftk_amend(table, words, 540, 600, FTK_REMELT, out);
    show("amend 540", out);
    ftk_find(table, words, 540, out);
    show("find 540", out);
    ftk_total(table, words, 510, out);
    show("total 510", out);
    list();
    ftk_drop(table, words, 510, out);
    show("drop 510", out);
    ftk_check(table, words, out);
    show("check", out);
    list();

    table[FTK_HEADER_ZERO] = 1; /* damage */
    ftk_check(table, words, out);
    show("check, damaged", out);
    return 0;
}
