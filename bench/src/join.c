/* The join of free neighbours in plain C: the same checks of the chamber's sections, in the same order, and the same rule.
 * Sections that lie inside end at 65,535 at most, so the later sums fit 32 bits. */
#include <stdint.h>
#include <string.h>

enum { MOST_SECTIONS = 128 };

typedef struct { uint32_t id, width, height, depth, count; } chamber;
typedef struct { uint32_t x, y, z, width, height, depth; } section;
typedef struct { uint32_t number, detail; } reply;

reply plain_join(chamber *c, section *sections, section *common);

static uint32_t least(uint32_t a, uint32_t b) { return a < b ? a : b; }
static uint32_t most(uint32_t a, uint32_t b) { return a < b ? b : a; }

/* Along one axis: a section has cells, and reaches no further than the chamber. */
static int lies(uint32_t at, uint32_t side, uint32_t room) { return side != 0 && (uint64_t)at + side <= room; }

static int inside(const section *s, const chamber *c)
{
    return lies(s->x, s->width, c->width) && lies(s->y, s->height, c->height) && lies(s->z, s->depth, c->depth);
}

static int share_a_cell(const section *a, const section *b)
{
    return a->x < b->x + b->width && b->x < a->x + a->width
        && a->y < b->y + b->height && b->y < a->y + a->height
        && a->z < b->z + b->depth && b->z < a->z + a->depth;
}

static section common_box(const section *a, const section *b)
{
    section s = {most(a->x, b->x), most(a->y, b->y), most(a->z, b->z), 0, 0, 0};
    s.width = least(a->x + a->width, b->x + b->width) - s.x;
    s.height = least(a->y + a->height, b->y + b->height) - s.y;
    s.depth = least(a->z + a->depth, b->z + b->depth) - s.z;
    return s;
}

static int same_x(const section *a, const section *b) { return a->x == b->x && a->width == b->width; }
static int same_y(const section *a, const section *b) { return a->y == b->y && a->height == b->height; }
static int same_z(const section *a, const section *b) { return a->z == b->z && a->depth == b->depth; }

static int touch_x(const section *a, const section *b) { return a->x + a->width == b->x || b->x + b->width == a->x; }
static int touch_y(const section *a, const section *b) { return a->y + a->height == b->y || b->y + b->height == a->y; }
static int touch_z(const section *a, const section *b) { return a->z + a->depth == b->z || b->z + b->depth == a->z; }

/* Two axes are the same, and the sections touch on the third. */
static int join_into_one(const section *a, const section *b)
{
    if (!same_x(a, b))
        return same_y(a, b) && same_z(a, b) && touch_x(a, b);
    if (!same_y(a, b))
        return same_z(a, b) && touch_y(a, b);
    return touch_z(a, b);
}

static section joined_box(const section *a, const section *b)
{
    section s = {least(a->x, b->x), least(a->y, b->y), least(a->z, b->z), 0, 0, 0};
    s.width = most(a->x + a->width, b->x + b->width) - s.x;
    s.height = most(a->y + a->height, b->y + b->height) - s.y;
    s.depth = most(a->z + a->depth, b->z + b->depth) - s.z;
    return s;
}

/* Joins the first pair that joins. 0 where none does. */
static int join_first(section *s, uint32_t count)
{
    for (uint32_t i = 0; i < count; i++)
        for (uint32_t j = i + 1; j < count; j++)
            if (join_into_one(&s[i], &s[j])) {
                s[i] = joined_box(&s[i], &s[j]);
                memmove(&s[j], &s[j + 1], (count - j - 1) * sizeof *s);
                return 1;
            }
    return 0;
}

reply plain_join(chamber *c, section *s, section *common)
{
    uint32_t left = c->count;
    memset(common, 0, sizeof *common);
    for (uint32_t i = 0; i < left; i++)
        if (!inside(&s[i], c))
            return (reply){3, 0};
    for (uint32_t j = 0; j < left; j++)
        for (uint32_t i = 0; i < j; i++)
            if (share_a_cell(&s[i], &s[j])) {
                *common = common_box(&s[i], &s[j]);
                return (reply){10, j};
            }
    while (join_first(s, left))
        left--;
    memset(&s[left], 0, (MOST_SECTIONS - left) * sizeof *s);
    reply done = {0, c->count - left};
    c->count = left;
    return done;
}
