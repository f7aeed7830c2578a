/* The bench cases P1 to P11, every refusal that each call can give, and where a record counts, through include/ngamsothul.h. */
#include "calls.h"

#include <float.h>

static const double A[4] = {0, 1, 2, 4};
static double held[4096], second[4096];
static unsigned checked;

/* ---- what is expected */
static void counted(const char *why, const call *c, uint32_t number, const size_t *cells);

static void refused(const char *why, const call *c, uint32_t number, size_t axis, size_t place)
{
    if (c->what == COUNT_RECORD && number != NG_LIMIT) {
        counted(why, c, number, NULL); /* a success of that call */
        return;
    }
    ng_answer a = both_sides(c).answer;
    checked++;
    if (a.number != number || a.axis != axis || a.place != place)
        fail("%s, %s: %u, %zu, %zu in the place of %u, %zu, %zu", known[c->what].name, why, a.number, a.axis, a.place, number, axis, place);
}

static given passed(const char *why, const call *c)
{
    given g = both_sides(c);
    checked++;
    if (g.answer.number) fail("%s, %s: refused %u, %zu, %zu", known[c->what].name, why, g.answer.number, g.answer.axis, g.answer.place);
    return g;
}

static void indexed(const char *why, const call *c, size_t index)
{
    given g = passed(why, c);
    if (g.index != index) fail("%s, %s: the index %zu in the place of %zu", known[c->what].name, why, g.index, index);
}

static void located(const char *why, const call *c, uint32_t between, size_t index, double fraction)
{
    given g = passed(why, c);
    if (g.flag != between || g.index != index || memcmp(&g.fraction, &fraction, 8))
        fail("%s, %s: %u, %zu, %a", known[c->what].name, why, g.flag, g.index, g.fraction);
}

static void valued(const char *why, const call *c, double value)
{
    given g = passed(why, c);
    if (memcmp(&g.answer.value, &value, 8))
        fail("%s, %s: the value %a in the place of %a", known[c->what].name, why, g.answer.value, value);
}

static void same(const char *why, const void *is, const void *owed, size_t size)
{
    if (memcmp(is, owed, size)) fail("%s", why);
}

/* ---- calls that are made, to be changed in one place each */
static call on_axis(enum what what, const double *grid, size_t n, double x)
{
    return (call){.what = what, .nodes = grid, .nodes_length = n, .x = x, .tolerance = 0};
}

static call uniform(double first, double step, size_t n, double x)
{
    return (call){.what = LOCATE_LOWER_INDEX_UNIFORM, .first = first, .step = step, .at = n, .x = x};
}

static call stepped(uint8_t direction, double x)
{
    call c = on_axis(LOCATE_STEP_INDEX, A, 4, x);
    c.direction = direction;
    return c;
}

/* Two axes, three nodes and two, of one step each. */
static double nodes[5], values[6], point[2];
static uint8_t directions[2];
static uint8_t image[NG_MOST_BYTES], rec[40];
static ng_tally tally;
enum { IMAGE = 40 + 8 * 5 + 8 * 6, RECORD = 1 + 8 * 2 };

/* The record of a kind and of the reading. */
static void recorded(int kind)
{
    rec[0] = (uint8_t)kind;
    memcpy(rec + 1, point, sizeof point);
}

static call table(enum what what)
{
    memcpy(nodes, (double[5]){0, 1, 2, 0, 1}, sizeof nodes);
    memcpy(values, (double[6]){0, 1, 2, 3, 4, 5}, sizeof values);
    memcpy(point, (double[2]){0.5, 0.25}, sizeof point);
    memcpy(directions, (uint8_t[2]){0, 1}, sizeof directions);
    call c = {
        .what = what, .shape = {2, {3, 2, 77, 0}}, .nodes = nodes, .nodes_length = 5, .values = values, .values_length = 6,
        .point = point, .point_length = 2, .directions = directions, .directions_length = 2, .at = 0, .x = 0.5,
        .held = held, .room = 2};
    if (what == WRITE) c.room = IMAGE;
    if (what == LOAD) c.image = image, c.image_length = IMAGE, c.room = 5, c.second_held = second, c.second_room = 6;
    if (what == LOAD) c.nodes = c.values = NULL, c.nodes_length = c.values_length = 0;
    if (what == COUNT_RECORD) c.image = rec, c.image_length = RECORD, c.held = &tally, recorded(0);
    return c;
}

static int takes_point(enum what w) { return w >= LINEAR && w <= STEP; }
static int cuts(enum what w) { return w >= SLICE_LINEAR && w <= SLICE_STEP; }
static int linear(enum what w) { return w == LINEAR || w == LINEAR_UNIFORM || w == SLICE_LINEAR || w == SLICE_LINEAR_UNIFORM; }
static int of_one_step(enum what w) { return w == LINEAR_UNIFORM || w == SLICE_LINEAR_UNIFORM; }
static int directed(enum what w) { return w == STEP || w == SLICE_STEP; }

/* ---- the bench cases */
static void bench_axis(void)
{
    for (int i = 0; i < 4; i++) {
        call c = on_axis(LOCATE_LOWER_INDEX, A, 4, (double[]){1, 4, -1, 9}[i]);
        indexed("P1", &c, (size_t[]){0, 2, 0, 2}[i]);
    }
    call c = on_axis(LOCATE_AXIS, A, 4, 1);
    located("P2", &c, 0, 1, 0.0);
    c.x = 3;
    located("P2", &c, 1, 2, 0.5);
    c = on_axis(LOCATE_AXIS, (double[]){-1, 1}, 2, 1 - 0x1p-53);
    located("P3", &c, 1, 0, 1.0);
    c = on_axis(LOCATE_AXIS, (double[]){0, 0x1p1000}, 2, 0x1p-1074);
    located("P4", &c, 1, 0, 0.0);

    for (int i = 0; i < 3; i++) {
        c = stepped(0, (double[]){1, 3, 4}[i]);
        indexed("P7 Lower", &c, (size_t[]){1, 2, 3}[i]);
        c = stepped(1, (double[]){0, 1, 3}[i]);
        indexed("P7 Upper", &c, (size_t[]){0, 1, 3}[i]);
        c = uniform(0, 1, 4, (double[]){1, 9, 0x1p70}[i]);
        indexed("P8", &c, (size_t[]){1, 2, 0}[i]);
    }
    c = on_axis(VALIDATE_EPSILON, (double[]){0, 1, 2 + 0x1p-42}, 3, 0);
    c.tolerance = NAN; /* not looked at */
    passed("P10", &c);
    c.nodes = (double[]){0, 1, 2 + 0x1p-41};
    refused("P10", &c, 8, 0, 1);
}

static void bench_table(void)
{
    double four[4] = {10, 11, 12, 13}, three = 3, near_zero = -0x1p-60;
    call c = {.what = NEAREST, .shape = {1, {4}}, .nodes = A, .nodes_length = 4, .values = four, .values_length = 4,
        .point = &three, .point_length = 1};
    valued("P5", &c, 13);
    c.shape.counts[0] = c.nodes_length = c.values_length = 2;
    c.nodes = (double[]){-1, 1}, c.point = &near_zero;
    valued("P6", &c, 11);

    double squares[4] = {0, 1, 0, 1}, corners[4] = {0, 1, 2, 3}, reading[2] = {0.5, 0.25}, cut[3] = {7, 7, 7};
    c = (call){.what = LINEAR, .shape = {2, {2, 2}}, .nodes = squares, .nodes_length = 4, .values = corners, .values_length = 4,
        .point = reading, .point_length = 2, .at = 0, .x = 0.5, .held = cut, .room = 3};
    valued("P9", &c, 1.25);
    c.what = SLICE_LINEAR;
    given g = passed("P9, the slice", &c);
    same("P9, the slice's values", now.held, (double[]){1, 2, 7}, 24);
    same("P9, the slice's shape", &g.shape, &(ng_shape){1, {2}}, sizeof(ng_shape));
}

static void bench_refused(void)
{
    for (int w = LOCATE_LOWER_INDEX; w <= VALIDATE_EPSILON; w++) {
        if (w == LOCATE_LOWER_INDEX_UNIFORM) continue;
        call c = on_axis(w, (double[]){0, 0}, 2, 0);
        refused("P11", &c, 5, 0, 1);
        c.nodes = (double[]){-DBL_MAX, DBL_MAX};
        refused("the largest numbers", &c, 6, 0, 1);
        c.nodes_length = 1;
        refused("one node", &c, 2, 0, 0);
        double long_axis[65];
        for (int i = 0; i < 65; i++) long_axis[i] = i;
        c.nodes = long_axis, c.nodes_length = 65;
        refused("65 nodes", &c, 2, 0, 0);
        c.nodes_length = 64;
        passed("64 nodes", &c);
    }
}

/* ---- the primitives' refusals */
static void primitives(void)
{
    double wild[3] = {NAN, INFINITY, -INFINITY};
    for (int i = 0; i < 3; i++) {
        for (int w = LOCATE_LOWER_INDEX; w <= EXACT_INDEX; w++) {
            call c = on_axis(w, A, 4, wild[i]);
            refused("a wild reading", &c, 10, 0, 0);
        }
        for (int w = LOCATE_LOWER_INDEX; w <= VALIDATE_EPSILON; w++) {
            double bad[4] = {0, 1, wild[i], 4};
            call c = on_axis(w, bad, 4, NAN);
            if (w != LOCATE_LOWER_INDEX_UNIFORM) refused("a wild node", &c, 4, 0, 2);
        }
        call c = uniform(0, 1, 4, wild[i]);
        refused("a wild reading", &c, 10, 0, 0);
        c = uniform(wild[i], 1, 4, 0);
        refused("a wild first node", &c, 4, 0, 0);
        c = uniform(0, wild[i], 4, NAN);
        refused("a wild step", &c, 8, 0, 0);
        for (int w = VALIDATE; w <= VALIDATE_EPSILON; w++) {
            c = on_axis(w, (double[]){0, 1, 2}, 3, 0);
            c.lent = UINT32_MAX, c.tolerance = wild[i];
            refused("a wild tolerance", &c, 8, 0, 0);
        }
    }
    call c = uniform(0, 0, 4, 0);
    refused("a step of 0", &c, 8, 0, 0);
    c = uniform(0, 1, 1, 0);
    refused("a count of 1", &c, 2, 0, 0);
    c = uniform(0, 1, SIZE_MAX, 0);
    refused("the largest count", &c, 2, 0, 0);
    for (int d = 2; d < 256; d += 253) {
        c = stepped((uint8_t)d, 1);
        refused("no direction", &c, 9, 0, 0);
    }
    c = on_axis(EXACT_INDEX, A, 4, 1);
    for (size_t lower = 0; lower < 3; lower++) {
        c.at = lower;
        located("the node 1", &c, lower < 2, lower < 2, 0.0);
    }
    c.at = 3;
    refused("a lower index past the last cell", &c, 2, 0, 1);
    c.at = SIZE_MAX;
    refused("the largest lower index", &c, 2, 0, 1);
    c = on_axis(LOCATE_AXIS, (double[]){0, 1e-300}, 2, 1e300);
    refused("a fraction past all numbers", &c, 12, 0, 0);
    for (int w = VALIDATE; w <= VALIDATE_EPSILON; w++) {
        c = on_axis(w, A, 4, 0);
        c.lent = 1, c.tolerance = -0x1p-1074;
        refused("a tolerance below 0", &c, 8, 0, 0);
        c.tolerance = 0;
        refused("an axis of two steps", &c, 8, 0, 2);
        c.tolerance = 1;
        passed("the same with room", &c);
    }
    c.lent = 0;
    refused("by the default", &c, 8, 0, 2);
}

/* ---- 1, 2, 3: the shape and the lengths, of the lookups, the slices and the writer */
static void frames(enum what w)
{
    size_t many[3] = {0, 5, SIZE_MAX};
    for (int i = 0; i < 3; i++) {
        call c = table(w);
        c.shape.axes = many[i];
        refused("axes", &c, 1, 0, 0);
    }
    size_t odd[4] = {0, 1, 65, SIZE_MAX};
    for (size_t a = 0; a < 2; a++)
        for (int i = 0; i < 4; i++) {
            call c = table(w);
            c.shape.counts[a] = odd[i];
            refused("a count", &c, 2, a, 0);
        }
    call c = table(w);
    c.shape = (ng_shape){3, {64, 64, 2}};
    refused("the product", &c, 2, 0, 0);
    c = table(w), c.nodes_length = 4;
    refused("nodes", &c, 3, 0, 0);
    c = table(w), c.values_length = 5;
    refused("values", &c, 3, 0, 1);
    c = table(w), c.point_length = 1;
    if (takes_point(w)) refused("a reading", &c, 3, 0, 2);
    c = table(w), c.directions_length = 1;
    if (directed(w)) refused("directions", &c, 3, 0, 3);
    c = table(w), c.nulls = 1, c.nodes_length = c.values_length = c.point_length = c.directions_length = c.room = 0;
    refused("nothing lent", &c, 3, 0, 0);
}

/* ---- 4 to 7: what the table holds */
static void contents(enum what w)
{
    double wild[3] = {NAN, INFINITY, -INFINITY};
    for (int i = 0; i < 3; i++) {
        for (size_t k = 0; k < 5; k++) {
            call c = table(w);
            nodes[k] = wild[i];
            refused("a wild node", &c, 4, k / 3, k % 3);
        }
        for (size_t k = 0; k < 6; k++) {
            call c = table(w);
            values[k] = wild[i];
            refused("a wild value", &c, 7, 0, k);
        }
    }
    call c = table(w);
    nodes[2] = nodes[1];
    refused("a node that does not rise", &c, 5, 0, 2);
    c = table(w), nodes[4] = -0.0;
    refused("minus zero after zero", &c, 5, 1, 1);
    c = table(w), nodes[3] = -DBL_MAX, nodes[4] = DBL_MAX;
    refused("nodes too far apart", &c, 6, 1, 1);
}

/* ---- 8 to 12, 15 and 16: the reading, and a slice's room and axis */
static void readings(enum what w)
{
    call c = table(w);
    nodes[2] = 2.5;
    if (of_one_step(w)) refused("two steps", &c, 8, 0, 1);
    c = table(w), directions[1] = 2;
    if (directed(w)) refused("no direction", &c, 9, 1, 0);
    double wild[3] = {NAN, INFINITY, -INFINITY};
    for (int i = 0; i < 3; i++) {
        c = table(w), c.x = point[0] = wild[i];
        refused("a wild reading", &c, 10, 0, 0);
    }
    c = table(w), c.x = point[0] = -0x1p-1074;
    refused("a reading below", &c, 11, 0, 0);
    c = table(w), c.x = point[0] = 2 + 0x1p-51;
    refused("a reading above", &c, 11, 0, 1);
    c = table(w), point[1] = 1 + 0x1p-52;
    if (takes_point(w)) refused("a reading above", &c, 11, 1, 1);
    /* the last gap may be wider than the first, so that a fraction of LinearUniform lies above 1 */
    c = table(w), c.x = point[0] = nodes[2] = 2 + 0x1p-42, point[1] = 1;
    values[5] = DBL_MAX;
    if (w == LINEAR_UNIFORM) refused("a result past all numbers", &c, 12, 0, 0);
    else if (w == SLICE_LINEAR_UNIFORM) refused("a value past all numbers", &c, 12, 0, 1);
    else passed("the largest number", &c);
    if (!cuts(w)) return;

    c = table(w), c.room = 1;
    refused("room", &c, 15, 0, 1);
    c.nulls = 1, c.room = 0;
    refused("no room", &c, 15, 0, 1);
    c = table(w), c.at = SIZE_MAX;
    refused("no such axis", &c, 16, 0, 0);
    c.at = 1;
    if (linear(w)) refused("not axis 0", &c, 16, 0, 0);
    c = table(w), c.shape = (ng_shape){1, {3}}, c.nodes_length = c.values_length = 3, c.directions_length = 1;
    refused("a table of one axis", &c, 16, 0, 0);
}

/* ---- the image */
static void written(void)
{
    call c = table(WRITE);
    given g = passed("the writer", &c);
    if (g.length != IMAGE) fail("the image has %zu bytes", g.length);
    memcpy(image, now.held, IMAGE);
    c.room = IMAGE - 1;
    refused("room", &c, 15, 0, 2);
    c.room = 0, c.nulls = 1;
    refused("no room", &c, 15, 0, 2);

    c = table(LOAD);
    g = passed("the loader", &c);
    table(WRITE);
    same("the nodes come back", now.held, nodes, sizeof nodes);
    same("the values come back", now.second_held, values, sizeof values);
    same("the shape comes back", &g.shape, &(ng_shape){2, {3, 2}}, sizeof(ng_shape));
    c.room = 4;
    refused("room for nodes", &c, 15, 0, 0);
    c.room = 5, c.second_room = 5;
    refused("room for values", &c, 15, 0, 1);
    c.room = c.second_room = 0, c.nulls = 1;
    refused("no room", &c, 15, 0, 0);
    c.image_length = 0;
    refused("no image", &c, 13, 0, 0);
}

static void header_bytes(void)
{
    static const struct { size_t at; uint8_t byte; uint32_t number; size_t axis, place; } faults[] = {
        {0, 0, 13, 0, 0}, {0, 2, 13, 0, 0}, {1, 0, 1, 0, 0}, {1, 5, 1, 0, 0}, {2, 1, 13, 0, 2}, {3, 1, 13, 0, 2},
        {4, IMAGE - 1, 13, 0, 4}, {7, 1, 13, 0, 4}, {8, 1, 2, 0, 0}, {10, 65, 2, 1, 0}, {12, 1, 13, 0, 12}, {15, 1, 13, 0, 14},
        {24, 1, 13, 0, 24}, {31, 1, 13, 0, 28}, {36, 1, 13, 0, 36}, {39, 1, 13, 0, 36}, {16, 41, 14, 0, 0}, {16, 32, 14, 0, 0},
        {20, IMAGE - 8, 14, 1, 0}, {32, IMAGE - 40, 14, 2, 0}, {35, 255, 14, 2, 0}, {16, 48, 18, 0, 1}, {20, 56, 18, 0, 1},
        {32, 56, 18, 0, 2}, {32, 72, 18, 1, 2}};
    for (size_t i = 0; i < sizeof faults / sizeof *faults; i++) {
        call c = table(LOAD);
        uint8_t was = image[faults[i].at];
        image[faults[i].at] = faults[i].byte;
        refused("a byte of the header", &c, faults[i].number, faults[i].axis, faults[i].place);
        image[faults[i].at] = was;
    }
    for (size_t n = 0; n < IMAGE; n++) {
        call c = table(LOAD);
        c.image_length = n;
        refused("an image cut short", &c, 13, 0, n < 40 ? 0 : 4);
    }
}

static void image_contents(void)
{
    double wild = NAN, low = 1, far[2] = {-DBL_MAX, DBL_MAX};
    static const struct { size_t at; uint32_t number; size_t axis, place; } inside[] = {
        {48, 4, 0, 1}, {80, 7, 0, 0}, {56, 5, 0, 2}, {64, 6, 1, 1}};
    for (int i = 0; i < 4; i++) {
        call c = table(LOAD);
        uint8_t was[16];
        memcpy(was, image + inside[i].at, 16);
        if (i < 2) memcpy(image + inside[i].at, &wild, 8);
        else memcpy(image + inside[i].at, i == 2 ? &low : far, i == 2 ? 8 : 16);
        refused("what the image holds", &c, inside[i].number, inside[i].axis, inside[i].place);
        memcpy(image + inside[i].at, was, 16);
    }
    call c = table(LOAD);
    uint8_t product[8] = {64, 0, 64, 0, 2, 0, 0, 0}, was[8];
    memcpy(was, image + 8, 8), memcpy(image + 8, product, 8), image[1] = 3;
    refused("the product", &c, 2, 0, 0);
    memcpy(image + 8, was, 8), image[1] = 2;
    passed("the image again", &c);
}

/* ---- 18: where the areas of an image lie. at has the offsets, the axes' and last that of the values. */
static size_t floats(const ng_shape *s, size_t k)
{
    size_t all = 1;
    for (size_t a = 0; a < s->axes; a++) all *= s->counts[a];
    return k < s->axes ? s->counts[k] : all;
}

/* An image of so many bytes. The number at each byte 8 * k is k: nodes rise wherever they lie, so that nothing but where areas lie is at
 * fault, and what was loaded shows where it was read. */
static call laid(const ng_shape *s, const size_t *at, size_t length)
{
    size_t all = 0;
    memset(image, 0, NG_HEADER_BYTES);
    image[0] = 1, image[1] = (uint8_t)s->axes;
    memcpy(image + 4, &length, 4), memcpy(image + 32, at + s->axes, 4);
    for (size_t a = 0; a < s->axes; a++) {
        memcpy(image + 8 + 2 * a, s->counts + a, 2), memcpy(image + 16 + 4 * a, at + a, 4);
        all += s->counts[a];
    }
    for (size_t k = 5; k < length / 8; k++) memcpy(image + 8 * k, &(double){(double)k}, 8);
    return (call){.what = LOAD, .image = image, .image_length = length, .held = held, .room = all, .second_held = second,
        .second_room = floats(s, s->axes)};
}

/* How often each pair was the first that shares a byte; at 0, 0 how often none was. */
static unsigned pairs[5][5];

/* The first pair is found byte by byte: one area is laid on an empty page, and the page is searched where the other lies. Where there is
 * none, the areas come back. */
static void lie(const char *why, const ng_shape *s, const size_t *at, size_t length)
{
    static uint8_t page[NG_MOST_BYTES];
    call c = laid(s, at, length);
    for (size_t i = 0; i < s->axes; i++)
        for (size_t j = i + 1; j <= s->axes; j++) {
            memset(page, 0, sizeof page), memset(page + at[i], 1, 8 * floats(s, i));
            if (!memchr(page + at[j], 1, 8 * floats(s, j))) continue;
            refused(why, &c, NG_OVERLAP, i, j), pairs[i][j]++;
            return;
        }
    given g = passed(why, &c);
    const char *node = now.held;
    same("the shape of areas that lie apart", &g.shape, s, sizeof *s);
    for (size_t a = 0; a < s->axes; a++) same("nodes that lie apart", node, image + at[a], 8 * s->counts[a]), node += 8 * s->counts[a];
    same("values that lie apart", now.second_held, image + at[s->axes], 8 * floats(s, s->axes));
    pairs[0][0]++;
}

/* Each pair of a table's areas was the first that shares a byte, and sometimes none was. */
static void all_pairs(size_t axes)
{
    for (size_t i = 0; i < axes; i++)
        for (size_t j = i + 1; j <= axes; j++)
            if (!pairs[i][j] || !pairs[0][0]) fail("of %zu axes the areas %zu and %zu never shared a byte, or some always did", axes, i, j);
    memset(pairs, 0, sizeof pairs);
}

/* Every place of every area, by 8 bytes, in an image with room for two numbers more than it needs. */
static void areas_anywhere(void)
{
    const ng_shape one = {1, {3}}, two = {2, {3, 2}};
    for (size_t i = 0; i < 6 * 6; i++) lie("two areas", &one, (size_t[]){40 + 8 * (i / 6), 40 + 8 * (i % 6)}, 40 + 8 * 8);
    all_pairs(1);
    for (size_t i = 0; i < 11 * 12 * 8; i++)
        lie("three areas", &two, (size_t[]){40 + 8 * (i / 96), 40 + 8 * (i / 8 % 12), 40 + 8 * (i % 8)}, 40 + 8 * 13);
    all_pairs(2);
}

/* Areas that lie a number apart, in their order and turned round: each moved to every place, then each two moved upon others. */
static void areas_moved(const ng_shape *s)
{
    const size_t n = s->axes + 1;
    for (int turned = 0; turned < 2; turned++) {
        size_t base[5] = {0}, at[5], end = 40;
        for (size_t k = 0; k < n; k++) base[turned ? n - 1 - k : k] = end, end += 8 * (floats(s, turned ? n - 1 - k : k) + 1);
        end += 8 * floats(s, s->axes); /* so that the values have room wherever an area lay */
        for (size_t k = 0; k < n; k++)
            for (size_t to = 40; to + 8 * floats(s, k) <= end; to += 8)
                memcpy(at, base, sizeof at), at[k] = to, lie("one area moved", s, at, end);
        all_pairs(s->axes);
        for (size_t i = 0; i < n * n * n * n; i++) {
            memcpy(at, base, sizeof at), at[i / n / n / n] = at[i / n / n % n], at[i / n % n] = at[i % n];
            lie("two areas moved", s, at, end);
        }
        all_pairs(s->axes);
    }
}

/* "checked after 14 and before 15": what is asked before it, and what after it. */
static void order_of_areas(void)
{
    const ng_shape s = {2, {3, 2}};
    static const struct { size_t at[3]; uint32_t number; size_t axis, place; } asked[] = {
        {{40, 40, IMAGE - 40}, 14, 2, 0}, {{40, 40, 84}, 14, 2, 0}, {{40, 32, 40}, 14, 1, 0}, {{44, 64, 64}, 14, 0, 0},
        {{40, 44, 80}, 14, 1, 0}, {{40, 40, 80}, 18, 0, 1}, {{40, 64, 56}, 18, 0, 2}, {{40, 64, 72}, 18, 1, 2}, {{40, 40, 40}, 18, 0, 1}};
    for (size_t i = 0; i < sizeof asked / sizeof *asked; i++) {
        call c = laid(&s, asked[i].at, IMAGE);
        refused("areas", &c, asked[i].number, asked[i].axis, asked[i].place);
        c.room = c.second_room = 0, c.nulls = 1;
        refused("areas before room", &c, asked[i].number, asked[i].axis, asked[i].place);
        memset(image + 40, 0xff, IMAGE - 40);
        refused("areas before room and NaNs", &c, asked[i].number, asked[i].axis, asked[i].place);
        c = laid(&s, asked[i].at, IMAGE), memset(image + 40, 0, IMAGE - 40);
        refused("areas before nodes that do not rise", &c, asked[i].number, asked[i].axis, asked[i].place);
        image[36] = 1;
        refused("bytes 36-39 before areas", &c, 13, 0, 36);
        image[24] = 1;
        refused("an unused offset before areas", &c, 13, 0, 24);
        image[8] = 65;
        refused("a count before areas", &c, 2, 0, 0);
    }
}

/* In the longest image, with the most values: areas that touch at its end, and the same 8 bytes nearer to each other. */
static void long_areas(void)
{
    const ng_shape s = {2, {64, 64}};
    enum { END = NG_MOST_BYTES, VALUES = END - 8 * 4096, NODES_BYTES = 8 * 64 };
    lie("areas that touch", &s, (size_t[]){40, VALUES - NODES_BYTES, VALUES}, END);
    lie("areas that touch", &s, (size_t[]){VALUES - NODES_BYTES, VALUES - 2 * NODES_BYTES, VALUES}, END);
    lie("areas that touch", &s, (size_t[]){END - NODES_BYTES, END - 2 * NODES_BYTES, 40}, END);
    if (pairs[0][0] != 3) fail("the areas that should touch share a byte");
    lie("nearer", &s, (size_t[]){40, VALUES - NODES_BYTES + 8, VALUES}, END);
    lie("nearer", &s, (size_t[]){VALUES - NODES_BYTES + 8, VALUES - 2 * NODES_BYTES, VALUES}, END);
    lie("nearer", &s, (size_t[]){END - NODES_BYTES - 8, END - 2 * NODES_BYTES, 40}, END);
    all_pairs(2);
}

/* ---- the tally. Its counts are all different at first, so that a wrong place shows. */
static void begin_tally(uint32_t records)
{
    uint32_t mark = 7000;
    tally.records = records;
    for (int i = 0; i < NG_MOST_AXES * NG_MOST_CELLS; i++) tally.cells[i / NG_MOST_CELLS][i % NG_MOST_CELLS] = mark++;
    for (int k = 0; k < 21; k++) tally.numbers[k] = mark++;
}

static void one_more(uint32_t *count) { *count += *count < UINT32_MAX; }

/* The record counts under its number, or where that is 0 in these cells; no other count changes. */
static void counted(const char *why, const call *c, uint32_t number, const size_t *cells)
{
    ng_tally owed = tally;
    owed.records++;
    if (number) one_more(&owed.numbers[number]);
    for (size_t a = 0; !number && a < c->shape.axes; a++) one_more(&owed.cells[a][cells[a]]);
    valued(why, c, 0.0);
    if (memcmp(now.held, &owed, sizeof owed)) fail("ng_count_record, %s: not counted under %u, or in another cell", why, number);
}

/* 8 to 12 by every kind; frames and contents have 1 to 7. */
static void counted_kinds(void)
{
    for (int kind = 0; kind < 5; kind++) {
        call c = table(COUNT_RECORD);
        nodes[2] = 2.5, recorded(kind);
        counted("two steps", &c, kind == 1 ? 8 : 0, (size_t[]){0, 0});
        for (size_t i = 0; i < 10; i++) {
            c = table(COUNT_RECORD);
            point[i / 5] = (double[]){NAN, INFINITY, -INFINITY, -0x1p-1074, i < 5 ? 2 + 0x1p-51 : 1 + 0x1p-52}[i % 5];
            recorded(kind);
            counted("a wild or an outer reading", &c, i % 5 < 3 ? 10 : 11, NULL);
        }
        c = table(COUNT_RECORD), point[0] = nodes[2] = 2 + 0x1p-42, point[1] = 1, values[5] = DBL_MAX, recorded(kind);
        counted("a result past all numbers", &c, kind == 1 ? 12 : 0, (size_t[]){1, 0});
    }
    for (int kind = 5; kind < 256; kind++) {
        call c = table(COUNT_RECORD);
        point[0] = kind % 2 ? NAN : 0.5, recorded(kind);
        counted("an unknown kind", &c, 9, NULL);
    }
}

/* 3 of a record's own length, and what is asked before it and after it. */
static void counted_lengths(void)
{
    for (size_t n = 0; n <= sizeof rec; n++) {
        call c = table(COUNT_RECORD);
        c.image_length = n, c.nulls = 1;
        counted("a record of this length", &c, n == RECORD ? 0 : 3, (size_t[]){0, 0});
        c.shape.counts[1] = 1;
        counted("a count before its length", &c, 2, NULL);
        c = table(COUNT_RECORD), c.image_length = n, values[5] = NAN, recorded(5);
        counted("its length before a value, a value before its kind", &c, n == RECORD ? 7 : 3, NULL);
    }
}

/* Readings on nodes and halfway, by every kind: a reading on a node counts in the cell below it, on the first node in cell 0. */
static void counted_cells(const call *in)
{
    uint8_t bytes[33];
    for (size_t j = 0; j < 127; j++)
        for (uint8_t kind = 0; kind < 5; kind++) {
            size_t cells[4];
            call c = *in;
            c.what = COUNT_RECORD, c.held = &tally, c.image = bytes, c.image_length = 1 + 8 * c.shape.axes, bytes[0] = kind;
            for (size_t a = 0; a < c.shape.axes; a++) {
                size_t halves = (j + 31 * a) % (2 * c.shape.counts[a] - 1);
                cells[a] = halves ? (halves - 1) / 2 : 0;
                memcpy(bytes + 1 + 8 * a, &(double){0.5 * (double)halves}, 8);
            }
            counted("every cell", &c, 0, cells);
        }
}

/* A run from nothing: on each axis the counts of the cells and of the numbers add up to the records. */
static void counted_run(void)
{
    memset(&tally, 0, sizeof tally);
    for (size_t i = 0; i < 2310; i++) {
        call c = table(COUNT_RECORD);
        size_t halves = i % 7; /* from half a step below the axis to half a step above it */
        point[0] = 0.5 * (double)halves - 0.5, point[1] = i % 11 ? 0.25 * (double)(i % 5) : NAN;
        recorded(i % 6);
        counted("a run", &c, i % 6 == 5 ? 9 : i % 11 == 0 ? 10 : halves % 6 == 0 ? 11 : 0, (size_t[]){halves > 3, 0});
        memcpy(&tally, now.held, sizeof tally);
    }
    for (size_t a = 0; a < 2; a++) {
        uint32_t sum = 0;
        for (int i = 0; i < NG_MOST_CELLS; i++) sum += tally.cells[a][i];
        for (int k = 0; k < 21; k++) sum += tally.numbers[k];
        if (sum != 2310 || tally.records != 2310) fail("axis %zu has %u of %u records", a, sum, tally.records);
    }
}

/* 17 whatever the record and the table are, and the tally as it was; one record before it the last is counted. A full count stays. */
static void limited(void)
{
    for (int i = 0; i < 3; i++)
        for (int kind = 0; kind < 6; kind++) {
            begin_tally((uint32_t[]){NG_MOST_RECORDS, NG_MOST_RECORDS + 1, UINT32_MAX}[i]);
            call c = table(COUNT_RECORD);
            recorded(kind);
            refused("past the limit", &c, 17, 0, 0);
            nodes[1] = NAN;
            refused("a refused table", &c, 17, 0, 0);
            c.image_length = 0, c.nulls = 1;
            refused("no record", &c, 17, 0, 0);
            c.shape.axes = 0;
            refused("no axes", &c, 17, 0, 0);
        }
    begin_tally(NG_MOST_RECORDS - 1);
    call c = table(COUNT_RECORD);
    counted("the last record", &c, 0, (size_t[]){0, 0});
    memset(&tally, 0xff, sizeof tally);
    refused("a tally that was not begun", &c, 17, 0, 0);
    tally.records = 0;
    counted("full cells", &c, 0, (size_t[]){0, 0});
    c.image_length = 0;
    counted("a full number", &c, 3, NULL);
}

/* As a program writes it, with tallies that lie at every multiple of 4. */
static void lying_anywhere(void)
{
    uint32_t words[sizeof(ng_tally) / 4 + 4];
    for (size_t at = 0; at < 4; at++) {
        memset(words, 0, sizeof words);
        ng_tally *lent = (ng_tally *)(words + at);
        table(COUNT_RECORD);
        for (int i = 0; i < 3; i++)
            if (ng_count_record(lent, (ng_shape){2, {3, 2}}, nodes, 5, values, 6, rec, RECORD - i).number) fail("not counted");
        if (lent->records != 3 || lent->cells[0][0] != 1 || lent->cells[1][0] != 1 || lent->numbers[3] != 2) fail("counted wrong");
    }
}

/* ---- the largest tables, with every rule */
static void largest(void)
{
    static double all_nodes[256], all_values[4096], reading[4];
    static const uint8_t up[4] = {1, 1, 1, 1};
    static const ng_shape shapes[] = {{2, {64, 64}}, {4, {8, 8, 8, 8}}, {3, {64, 32, 2}}, {1, {64}}};
    for (int s = 0; s < 4; s++) {
        size_t n = 0, m = 1;
        for (size_t a = 0; a < shapes[s].axes; a++) {
            for (size_t i = 0; i < shapes[s].counts[a]; i++) all_nodes[n + i] = (double)i;
            n += shapes[s].counts[a], m *= shapes[s].counts[a], reading[a] = 0.5;
        }
        for (size_t i = 0; i < m; i++) all_values[i] = (double)i;
        for (int w = LINEAR; w <= WRITE; w++) {
            call c = {
                .what = w, .shape = shapes[s], .nodes = all_nodes, .nodes_length = n, .values = all_values, .values_length = m,
                .point = reading, .point_length = shapes[s].axes, .directions = up, .directions_length = shapes[s].axes, .x = 0.5,
                .held = held, .room = 4096, .second_held = second, .second_room = 4096};
            if (w == WRITE) c.held = image, c.room = NG_MOST_BYTES;
            if (w == LINEAR) counted_cells(&c);
            if (w == LOAD || (cuts(w) && s == 3)) continue;
            passed("a large table", &c);
        }
        size_t length = result.length;
        memcpy(image, now.held, length);
        call c = {.what = LOAD, .image = image, .image_length = length, .held = held, .room = 4096,
            .second_held = second, .second_room = 4096};
        passed("its image", &c);
        same("its nodes", now.held, all_nodes, n * 8);
        same("its values", now.second_held, all_values, m * 8);
        memcpy(image + 32, &(uint32_t){(uint32_t)(40 + 8 * (n - 1))}, 4);
        refused("its values on its last node", &c, NG_OVERLAP, shapes[s].axes - 1, shapes[s].axes);
    }
}

int main(void)
{
    begin();
    for (int i = 0; i < 4096; i++) held[i] = 0x1p9 + i, second[i] = -0x1p9 - i;
    bench_axis(), bench_table(), bench_refused();
    primitives();
    for (int w = LINEAR; w <= SLICE_STEP; w++) {
        call c = table(w);
        given g = passed("the table itself", &c);
        if (cuts(w)) same("a slice's shape", &g.shape, &(ng_shape){1, {2}}, sizeof(ng_shape));
        frames(w), contents(w), readings(w);
    }
    frames(WRITE), contents(WRITE);
    written();
    header_bytes(), image_contents();
    areas_anywhere(), areas_moved(&(ng_shape){3, {2, 3, 2}}), areas_moved(&(ng_shape){4, {2, 3, 2, 2}});
    order_of_areas(), long_areas();
    begin_tally(5);
    frames(COUNT_RECORD), contents(COUNT_RECORD);
    counted_kinds(), counted_lengths();
    largest();
    counted_run(), limited(), lying_anywhere();
    finish("library", 0);
    printf("library: %u cases, each with its buffers at the starts and at the ends of their pages\n", checked);
}
