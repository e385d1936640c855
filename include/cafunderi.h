/* Cafunderi: boxes packed into chambers. The C face of the six jobs.
 *
 * `rt lib`, in crates/cafunderi, builds the archive out/libcafunderi.a there. It is for Linux on processors of x86-64-v2 and later, and needs
 * memcpy and memset of the C library.
 *
 * Tables. A table is a pointer to 32-bit words and its length in words. A box or a section is 6 words: x, y, z, width,
 * height, depth. Sides are 1 to 65,535.
 *
 *   chambers    5 words each: id, width, height, depth, free count. At most 16, ids strictly rising.
 *   store       768 words for each chamber, in the same order: 128 sections of 6 words. The first `free count` of them
 *               are the chamber's free sections.
 *   rectangles  5 words each: id, group (0 for none), width, height, depth. At most 63, no id twice.
 *   placements  5 words for each rectangle: 1 if placed, else 0; chamber id, x, y, z. An unplaced one is five zeros.
 *
 * What a caller owes. A pointer is aligned for uint32_t, and as many words as its length says can be read, and written
 * where it is no pointer to const. A table that can be written overlaps no other table of the call. Tables that are only
 * read may overlap each other. NULL with length 0 is an empty table. Nothing else is asked: whatever the words say, the
 * call ends, stays inside the tables and gives one of the replies below.
 *
 * The functions keep nothing between calls. Threads may call them at the same time on tables that they do not share.
 *
 * Replies. `reply` is a number of this list, `detail` says where. Indices start at 0, and the lowest faulty one is given.
 * A detail that is not named is 0.
 *
 *    0  done; return: the detail is the index of the new section; join: the detail is the number of joins
 *    1  a table's length is wrong
 *    2  a chamber's id is not above its predecessor's, a side is 0 or above 65,535, or the count is above 128;
 *       the detail is the chamber's index (audit: 0)
 *    3  a counted section has a zero side or reaches past its chamber; the detail is the chamber's index.
 *       Try: the section has a side of 0 or above 65,535, or ends above 65,535
 *    4  a rectangle's side is 0 or above 65,535; the detail is the rectangle's index (try: 0)
 *    5  a rectangle's id stands at an earlier index too; the detail is the index of the later
 *    6  free count + 2 x rectangles is above 128; the detail is the chamber's index
 *    7  not enough space; the detail is the first index of the refused group
 *    8  return, join: no chamber has the id
 *    9  return: the box has a zero side or reaches past the chamber
 *   10  return: a free section shares a cell with the box; the detail is the section's index, and the common box is
 *       handed on.
 *       Join: a free section shares a cell with an earlier one; the detail is the index of the later, and the common
 *       box is handed on
 *   11  return: 128 sections are there
 *   12  try: the rectangle is wider than the section
 *   13  try: it is taller
 *   14  try: it is deeper
 *   16  audit: a box has a zero side or reaches past the chamber; the detail is the box's index
 *   17  audit: a box shares a cell with an earlier one; the detail is the index of the later, and the common box is
 *       handed on
 *   18  audit: neither, but a cell is in no box
 *
 * The checks of a job go in the order of the numbers, each over the whole table before the next.
 *
 * The common box of two boxes that overlap is a box of 6 words: it has the cells that lie in both, and no other. Whoever is
 * told that two boxes overlap finds there which space they share.
 */
#ifndef CAFUNDERI_H
#define CAFUNDERI_H

#include <stddef.h>
#include <stdint.h>

#ifdef __cplusplus
extern "C" {
#endif

#define CAFUNDERI_MOST_SIDE 65535
#define CAFUNDERI_MOST_CHAMBERS 16
#define CAFUNDERI_CHAMBER_WORDS 5
#define CAFUNDERI_MOST_SECTIONS 128 /* free sections of a chamber */
#define CAFUNDERI_SECTION_WORDS 6
#define CAFUNDERI_STORE_WORDS 768 /* of a chamber */
#define CAFUNDERI_MOST_RECTANGLES 63
#define CAFUNDERI_RECTANGLE_WORDS 5
#define CAFUNDERI_PLACEMENT_WORDS 5
#define CAFUNDERI_SIDES_WORDS 3
#define CAFUNDERI_TRIED_WORDS 21 /* what a try writes: a location and three sections */
#define CAFUNDERI_MOST_BOXES 1024 /* of an audit, placed and free together */

typedef struct { uint32_t reply, detail; } cafunderi_reply;

/* Fresh chambers. The old counts and the old store are ignored.
 * Reply 0: each count is 1, the first section of each chamber is the whole chamber at 0, 0, 0, and all other words of the
 * store are 0. Replies 1 and 2 write nothing. */
cafunderi_reply cafunderi_fresh(uint32_t *chambers, size_t chambers_len,
                                uint32_t *store, size_t store_len);

/* Tries one placement: a rectangle of 3 words (width, height, depth) in the corner of a section of 6 words.
 * Reply 0: `placed`, of 21 words, gets the location x, y, z, and the three sections that remain: right of the rectangle,
 * above it, behind it. A section with a zero side has no cells.
 * Replies 3, 4, 12, 13 and 14 set the 21 words to 0. Reply 1 writes nothing. */
cafunderi_reply cafunderi_try(const uint32_t *section, size_t section_len,
                              const uint32_t *rectangle, size_t rectangle_len,
                              uint32_t *placed, size_t placed_len);

/* Packs groups of rectangles into the chambers. A group goes whole into one chamber.
 * Replies 0 and 7: the counts, the free sections and every placement record are written, and the words of the store past
 * each count are 0. At 7 the groups before the refused one stay placed, and the later ones are not tried.
 * Replies 1 to 6 write nothing. */
cafunderi_reply cafunderi_pack(uint32_t *chambers, size_t chambers_len,
                               uint32_t *store, size_t store_len,
                               const uint32_t *rectangles, size_t rectangles_len,
                               uint32_t *placements, size_t placements_len);

/* Returns a box of 6 words to the free sections of the chamber that has the id.
 * Reply 0: that chamber's count is one more, and the box stands after its last section. No other word of the two tables is
 * written. Replies 1, 2, 3 and 8 to 11 write nothing to them.
 * `common`, of 6 words, gets the common box of reply 10: the space that the box shares with the free section that the detail
 * names. At every other reply but 1 it gets six zeros. Reply 1 leaves it as it is. */
cafunderi_reply cafunderi_return(uint32_t *chambers, size_t chambers_len,
                                 uint32_t *store, size_t store_len,
                                 uint32_t id,
                                 const uint32_t *box, size_t box_len,
                                 uint32_t *common, size_t common_len);

/* Joins free neighbours in the chamber that has the id. Two sections join where they have equal origins and sides on two
 * axes and touch on the third, either way round. As long as two of the chamber's sections join, the pair with the lowest
 * first index, then the lowest second, is taken: the joined box stands at the first, the second is removed, and later ones
 * move down. After each join the search begins again at 0.
 * Reply 0: that chamber's count and its sections are written, and the words of its store past the count are 0, also where
 * nothing joins. No other word of the two tables is written. Replies 1, 2, 3, 8 and 10 write nothing to them.
 * `common`, of 6 words, gets the common box of reply 10: the space that the section which the detail names shares with the
 * earliest section that it meets. At every other reply but 1 it gets six zeros. Reply 1 leaves it as it is. */
cafunderi_reply cafunderi_join(uint32_t *chambers, size_t chambers_len,
                               uint32_t *store, size_t store_len,
                               uint32_t id,
                               uint32_t *common, size_t common_len);

/* Audits one chamber: its sides, 3 words, and two lists of boxes of 6 words each, placed and free, at most 1,024 together.
 * Reply 0: each unit cell of the chamber lies in exactly one box. Replies 1, 2, 16, 17 and 18: see above. Indices count the
 * placed list, then the free list. The lists are not written.
 * `common`, of 6 words, gets the common box of reply 17: the space that the box which the detail names shares with the
 * earliest box that it meets. At every other reply but 1 it gets six zeros. Reply 1 leaves it as it is. */
cafunderi_reply cafunderi_audit(const uint32_t *sides, size_t sides_len,
                                const uint32_t *placed, size_t placed_len,
                                const uint32_t *free, size_t free_len,
                                uint32_t *common, size_t common_len);

#ifdef __cplusplus
}
#endif

#endif
