/* A program in C that calls the six jobs, shows what they answer and holds each answer to the value it must have.
 * It ends with status 1 if one is off. */
#include <stdio.h>
#include <string.h>
#include "cafunderi.h"

/* A whole table as the functions take it: a pointer and a length in words. */
#define TABLE(words) (words), sizeof(words) / sizeof *(words)

enum { ID = 1, WORDS = CAFUNDERI_SECTION_WORDS };

static int wrong = 0;

static void expect(const char *what, cafunderi_reply got, uint32_t reply, uint32_t detail)
{
    printf("%s: reply %u, detail %u\n", what, (unsigned)got.reply, (unsigned)got.detail);
    if (got.reply != reply || got.detail != detail) {
        printf("  WRONG: should be reply %u, detail %u\n", (unsigned)reply, (unsigned)detail);
        wrong = 1;
    }
}

/* Prints `count` words and holds them to `wanted`. */
static void expect_words(const char *what, const uint32_t *words, const uint32_t *wanted, size_t count)
{
    printf("  %s:", what);
    for (size_t i = 0; i < count; i++)
        printf(" %u", (unsigned)words[i]);
    printf("\n");
    if (memcmp(words, wanted, count * sizeof *words) != 0) {
        printf("  WRONG\n");
        wrong = 1;
    }
}

/* Whether all words from `first` on are 0. */
static void expect_zeros(const char *what, const uint32_t *words, size_t first, size_t count)
{
    for (size_t i = first; i < count; i++)
        if (words[i] != 0) {
            printf("  WRONG: word %zu of %s is not 0\n", i, what);
            wrong = 1;
            return;
        }
}

int main(void)
{
    const uint32_t sides[CAFUNDERI_SIDES_WORDS] = {10, 10, 1};
    uint32_t chambers[CAFUNDERI_CHAMBER_WORDS] = {ID, 10, 10, 1, 99}; /* fresh ignores the old count */
    uint32_t store[CAFUNDERI_STORE_WORDS];
    memset(store, 0xff, sizeof store);

    const uint32_t whole[WORDS] = {0, 0, 0, 10, 10, 1};
    expect("fresh", cafunderi_fresh(TABLE(chambers), TABLE(store)), 0, 0);
    expect_words("chamber", chambers, (const uint32_t[]){ID, 10, 10, 1, 1}, CAFUNDERI_CHAMBER_WORDS);
    expect_words("free", store, TABLE(whole));
    expect_zeros("the store", store, WORDS, CAFUNDERI_STORE_WORDS);

    const uint32_t square[CAFUNDERI_SIDES_WORDS] = {4, 4, 1};
    uint32_t tried[CAFUNDERI_TRIED_WORDS];
    const uint32_t right_above_behind[CAFUNDERI_TRIED_WORDS] = {0, 0, 0, 4, 0, 0, 6, 4, 1, 0, 4, 0, 10, 6, 1, 0, 0, 1, 10, 10, 0};
    expect("try 4x4x1", cafunderi_try(store, WORDS, TABLE(square), TABLE(tried)), 0, 0);
    expect_words("location, right, above, behind", tried, TABLE(right_above_behind));

    const uint32_t wide[CAFUNDERI_SIDES_WORDS] = {11, 1, 1};
    expect("try 11x1x1, too wide", cafunderi_try(store, WORDS, TABLE(wide), TABLE(tried)), 12, 0);
    expect_zeros("a refused try", tried, 0, CAFUNDERI_TRIED_WORDS);

    /* Rectangles 7 and 3, of no group. The one with the lower id goes first. */
    const uint32_t rectangles[2 * CAFUNDERI_RECTANGLE_WORDS] = {7, 0, 4, 4, 1, 3, 0, 4, 4, 1};
    uint32_t placements[2 * CAFUNDERI_PLACEMENT_WORDS];
    const uint32_t both_placed[2 * CAFUNDERI_PLACEMENT_WORDS] = {1, ID, 4, 0, 0, 1, ID, 0, 0, 0};
    const uint32_t two_free[2 * WORDS] = {0, 4, 0, 10, 6, 1, 8, 0, 0, 2, 4, 1};
    expect("pack 7 and 3, both 4x4x1",
           cafunderi_pack(TABLE(chambers), TABLE(store), TABLE(rectangles), TABLE(placements)), 0, 0);
    expect_words("placements of 7 and 3", placements, TABLE(both_placed));
    expect_words("chamber", chambers, (const uint32_t[]){ID, 10, 10, 1, 2}, CAFUNDERI_CHAMBER_WORDS);
    expect_words("free", store, TABLE(two_free));
    expect_zeros("the store", store, 2 * WORDS, CAFUNDERI_STORE_WORDS);

    /* Both boxes are placed. The store's counted sections are the audit's free list. */
    const uint32_t boxes[2 * WORDS] = {0, 0, 0, 4, 4, 1, 4, 0, 0, 4, 4, 1};
    uint32_t common[WORDS];
    memset(common, 0xff, sizeof common);
    expect("audit", cafunderi_audit(TABLE(sides), TABLE(boxes), store, 2 * WORDS, TABLE(common)), 0, 0);
    expect_zeros("no common box", common, 0, WORDS);
    expect("audit without the last free section", cafunderi_audit(TABLE(sides), TABLE(boxes), store, WORDS, TABLE(common)), 18, 0);

    /* One more box, that meets both placed ones: the space that it shares with the earlier of them. */
    const uint32_t astray[WORDS] = {3, 3, 0, 2, 2, 1};
    expect("audit with a box astray", cafunderi_audit(TABLE(sides), TABLE(boxes), TABLE(astray), TABLE(common)), 17, 2);
    expect_words("common box", common, (const uint32_t[]){3, 3, 0, 1, 1, 1}, WORDS);

    /* Box 7 comes back. */
    const uint32_t *seven = boxes + WORDS;
    const uint32_t three_free[3 * WORDS] = {0, 4, 0, 10, 6, 1, 8, 0, 0, 2, 4, 1, 4, 0, 0, 4, 4, 1};
    expect("return 7", cafunderi_return(TABLE(chambers), TABLE(store), ID, seven, WORDS, TABLE(common)), 0, 2);
    expect_zeros("no common box", common, 0, WORDS);
    expect_words("chamber", chambers, (const uint32_t[]){ID, 10, 10, 1, 3}, CAFUNDERI_CHAMBER_WORDS);
    expect_words("free", store, TABLE(three_free));
    expect("audit", cafunderi_audit(TABLE(sides), boxes, WORDS, store, 3 * WORDS, TABLE(common)), 0, 0);

    /* Refusals write nothing to the tables. A return that overlaps hands on the space shared, and a wrong length nothing at all. */
    const uint32_t over[WORDS] = {3, 1, 0, 3, 2, 1};
    const uint32_t shared[WORDS] = {4, 1, 0, 2, 2, 1};
    expect("return a box that reaches into 7", cafunderi_return(TABLE(chambers), TABLE(store), ID, TABLE(over), TABLE(common)), 10, 2);
    expect_words("common box", common, TABLE(shared));
    expect("return a box of five words", cafunderi_return(TABLE(chambers), TABLE(store), ID, seven, WORDS - 1, TABLE(common)), 1, 0);
    expect("return with five words for the common box",
           cafunderi_return(TABLE(chambers), TABLE(store), ID, TABLE(over), common, WORDS - 1), 1, 0);
    expect("join with five words for the common box", cafunderi_join(TABLE(chambers), TABLE(store), ID, common, WORDS - 1), 1, 0);
    expect_words("common box", common, TABLE(shared));
    expect("join in a chamber that is not there", cafunderi_join(TABLE(chambers), TABLE(store), ID + 1, TABLE(common)), 8, 0);
    expect_zeros("no common box", common, 0, WORDS);
    expect("pack with one placement record",
           cafunderi_pack(TABLE(chambers), TABLE(store), TABLE(rectangles), placements, CAFUNDERI_PLACEMENT_WORDS), 1, 0);
    expect_words("placements of 7 and 3", placements, TABLE(both_placed));
    expect_words("chamber", chambers, (const uint32_t[]){ID, 10, 10, 1, 3}, CAFUNDERI_CHAMBER_WORDS);
    expect_words("free", store, TABLE(three_free));
    expect_zeros("the store", store, 3 * WORDS, CAFUNDERI_STORE_WORDS);

    /* Box 3 comes back too. The chamber is free, in four pieces. Rectangle 8 fits none of them, and fits once they are joined. */
    const uint32_t eight[CAFUNDERI_RECTANGLE_WORDS] = {8, 0, 10, 7, 1};
    uint32_t placement[CAFUNDERI_PLACEMENT_WORDS];
    expect("return 3", cafunderi_return(TABLE(chambers), TABLE(store), ID, boxes, WORDS, TABLE(common)), 0, 3);
    expect("pack 8, 10x7x1", cafunderi_pack(TABLE(chambers), TABLE(store), TABLE(eight), TABLE(placement)), 7, 0);
    expect_zeros("an unplaced record", placement, 0, CAFUNDERI_PLACEMENT_WORDS);
    memset(common, 0xff, sizeof common);
    expect("join", cafunderi_join(TABLE(chambers), TABLE(store), ID, TABLE(common)), 0, 3);
    expect_zeros("no common box", common, 0, WORDS);
    expect_words("chamber", chambers, (const uint32_t[]){ID, 10, 10, 1, 1}, CAFUNDERI_CHAMBER_WORDS);
    expect_words("free", store, TABLE(whole));
    expect_zeros("the store", store, WORDS, CAFUNDERI_STORE_WORDS);
    expect("pack 8, 10x7x1", cafunderi_pack(TABLE(chambers), TABLE(store), TABLE(eight), TABLE(placement)), 0, 0);
    expect_words("placement of 8", placement, (const uint32_t[]){1, ID, 0, 0, 0}, CAFUNDERI_PLACEMENT_WORDS);
    expect_words("free", store, (const uint32_t[]){0, 7, 0, 10, 3, 1}, WORDS);

    /* Empty tables. */
    expect("fresh, no chambers", cafunderi_fresh(NULL, 0, NULL, 0), 0, 0);
    expect("pack, nothing at all", cafunderi_pack(NULL, 0, NULL, 0, NULL, 0, NULL, 0), 0, 0);
    expect("audit, no boxes", cafunderi_audit(TABLE(sides), NULL, 0, NULL, 0, TABLE(common)), 18, 0);

    puts(wrong ? "some answers are WRONG" : "all answers are as they must be");
    return wrong;
}
