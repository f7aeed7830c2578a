/* A proof has one NaN, so an equation of floats says nothing of a NaN's sign and payload. Here that is run: outputs and inputs full of NaNs
 * of many patterns, over drawn calls of the four slices, the loader, the writer and the counting call. Every byte of a refused call's
 * outputs, every byte beyond what a made call writes, and every input must be as it was: both_sides (calls.h) fails at the first that is
 * not. */
#include "calls.h"

static uint64_t state = 1;

static uint64_t drawn(void) /* splitmix64 */
{
    uint64_t z = state += 0x9e3779b97f4a7c15u;
    z = (z ^ z >> 30) * 0xbf58476d1ce4e5b9u;
    z = (z ^ z >> 27) * 0x94d049bb133111ebu;
    return z ^ z >> 31;
}

static size_t below(size_t n) { return drawn() % n; }

/* A NaN: both signs, quiet and signalling, a payload of 0 to 51 bits; a signalling one has at least one. */
static unsigned long nans[2][2][52]; /* how many of each were laid */

static uint64_t a_nan(void)
{
    size_t sign = below(2), quiet = below(2), bits = below(52);
    uint64_t payload = bits ? 1ull << (bits - 1) | (drawn() & ((1ull << (bits - 1)) - 1)) : 0;
    if (!quiet && !payload) payload = bits = 1;
    nans[sign][quiet][bits]++;
    return (uint64_t)sign << 63 | 0x7ffull << 52 | (uint64_t)quiet << 51 | payload;
}

/* A pattern is laid as bytes: as a double it might be changed on the way. */
static void lay_nans(void *place, size_t n)
{
    for (size_t i = 0; i < n; i++) {
        uint64_t bits = a_nan();
        memcpy((char *)place + 8 * i, &bits, 8);
    }
}

/* A drawn table has at most 100 values; a fault may lend one more, and an output is up to 60 bytes longer. */
enum { MOST = 512 };
static double nodes[MOST], values[MOST], held[MOST], second[MOST];
static uint8_t image[8 * MOST], bytes[8 * MOST], directions[5];

/* ---- an accepted call, drawn */
static call accepted(enum what what)
{
    call c = {.what = what, .nodes = nodes, .values = values, .directions = directions, .held = held, .second_held = second};
    size_t axes = 1 + below(4), all = 1, sum = 0;
    if (what >= SLICE_LINEAR && what <= SLICE_STEP && axes == 1) axes = 2;
    c.shape.axes = axes;
    for (size_t a = 0; a < 4; a++) c.shape.counts[a] = a < axes ? 2 + below(axes < 3 ? 9 : 3) : drawn();
    c.at = what >= SLICE_NEAREST && what <= SLICE_STEP ? below(axes) : 0;
    for (size_t a = 0; a < axes; a++) {
        if (a == c.at) c.x = (double)below(c.shape.counts[a]);
        for (size_t i = 0; i < c.shape.counts[a]; i++) nodes[sum + i] = (double)i;
        sum += c.shape.counts[a], all *= c.shape.counts[a], directions[a] = (uint8_t)below(2);
    }
    for (size_t i = 0; i < all; i++) values[i] = (double)(int64_t)drawn();
    c.nodes_length = sum, c.values_length = all, c.directions_length = axes;
    c.room = all / c.shape.counts[c.at] + below(9);
    if (what == WRITE) c.room = 40 + 8 * sum + 8 * all + below(60), c.held = bytes;
    if (what == LOAD) c.room = sum + below(9), c.second_room = all + below(9);
    if (what == COUNT_RECORD) c.image = image, c.image_length = 1 + 8 * axes, c.held = bytes;
    return c;
}

/* ---- a fault, drawn: any length, count, node, value, reading or byte */
static void spoil(call *c)
{
    size_t axis = below(c->shape.axes), first = 0;
    for (size_t a = 0; a < axis; a++) first += c->shape.counts[a];
    switch (below(16)) {
    case 0: c->shape.axes = below(2) ? 0 : 5 + below(9); break;
    case 1: c->shape.counts[axis] = below(2) ? below(2) : 65 + below(99); break;
    case 2: c->nodes_length += 1 - 2 * below(2); break;
    case 3: c->values_length += 1 - 2 * below(2); break;
    case 4: c->directions_length ^= 1; break;
    case 5: lay_nans(nodes + below(c->nodes_length), 1); break;
    case 6: lay_nans(values + below(c->values_length), 1); break;
    case 7: lay_nans(nodes, c->nodes_length); break;
    case 8: lay_nans(values, c->values_length); break;
    case 9: nodes[first + 1] = nodes[first]; break;
    case 10: nodes[first] = -0x1.fp1023, nodes[first + 1] = 0x1.fp1023; break;
    case 11: nodes[first + c->shape.counts[axis] - 1] += 0.5; break;
    case 12: directions[below(c->directions_length)] = (uint8_t)(2 + below(254)); break;
    case 13: c->x = below(2) ? -1 : 99; break;
    case 14: lay_nans(&c->x, 1); break;
    case 15: c->at = below(2) ? c->shape.axes : 1; break;
    }
    if (below(4) == 0) c->room = below(c->room + 1), c->second_room = below(c->second_room + 1);
}

/* LinearUniform's 12: the last gap is wider than the first, and the reading is the last node. */
static void overflow(call *c)
{
    c->shape = (ng_shape){2, {3, 2}};
    c->nodes_length = 5, c->values_length = 6, c->at = 0;
    memcpy(nodes, (double[5]){0, 1, 2 + 0x1p-42, 0, 1}, 40);
    for (int i = 0; i < 6; i++) values[i] = 0x1.fffffffffffffp1023;
    c->x = nodes[2];
    c->room = 2 + below(9);
}

/* An area of the image goes to any place in it: to its own, or onto others, as there are no gaps. */
static void move_area(const call *c)
{
    size_t k = below(c->shape.axes + 1), last = k == c->shape.axes, floats = last ? c->values_length : c->shape.counts[k];
    size_t offset = 40 + 8 * below(c->nodes_length + c->values_length - floats + 1);
    memcpy(image + (last ? 32 : 16 + 4 * k), &offset, 4);
}

/* The image of the drawn table, whole or spoilt: a table is written first, then its bytes are changed, or its numbers before. */
static void to_load(call *c, int whole)
{
    uint8_t *at = image;
    size_t length = 40 + 8 * c->nodes_length + 8 * c->values_length, offset = 40;
    if (!whole && below(2)) {
        size_t k = below(8);
        if (k < 2) lay_nans(nodes + below(c->nodes_length), 1);
        else if (k < 4) lay_nans(values, c->values_length);
        else if (k < 6) nodes[1] = nodes[0];
        else nodes[0] = -0x1.fp1023, nodes[1] = 0x1.fp1023;
    }
    memset(image, 0, 40);
    at[0] = 1, at[1] = (uint8_t)c->shape.axes, at[4] = (uint8_t)length, at[5] = (uint8_t)(length >> 8);
    for (size_t a = 0; a < c->shape.axes; a++) {
        at[8 + 2 * a] = (uint8_t)c->shape.counts[a];
        at[16 + 4 * a] = (uint8_t)offset, at[17 + 4 * a] = (uint8_t)(offset >> 8);
        offset += 8 * c->shape.counts[a];
    }
    at[32] = (uint8_t)offset, at[33] = (uint8_t)(offset >> 8);
    memcpy(at + 40, nodes, 8 * c->nodes_length);
    memcpy(at + 40 + 8 * c->nodes_length, values, 8 * c->values_length);
    if (!whole && below(6) == 0) move_area(c);
    if (!whole && below(2)) at[below(40)] = (uint8_t)drawn();
    if (!whole && below(6) == 0) length = below(length);
    c->image = image, c->image_length = length;
    if (!whole && below(4) == 0) c->room = below(c->room + 1), c->second_room = below(c->second_room + 1);
    c->nodes = c->values = NULL, c->nodes_length = c->values_length = 0;
}

/* A record of any kind, on nodes or with NaNs, whole or too short or too long; of the tally how many it has, about the limit or any. */
static void to_count(call *c, int whole)
{
    uint32_t records = (uint32_t)(below(2) ? NG_MOST_RECORDS - 3 + below(6) : drawn());
    memcpy(bytes, &records, 4);
    lay_nans(image + 1, 4);
    image[0] = (uint8_t)below(6);
    for (size_t a = 0; a < 4; a++)
        if (whole || below(4)) memcpy(image + 1 + 8 * a, &(double){(double)below(2)}, 8);
    if (!whole && below(6) == 0) c->image_length = below(40);
}

int main(int count, char **words)
{
    unsigned long calls = count > 1 ? strtoul(words[1], NULL, 10) : 60000;
    begin();
    for (unsigned long i = 0; i < calls; i++) {
        call c = accepted(SLICE_LINEAR + below(CALLS - SLICE_LINEAR));
        int whole = below(4) == 0;
        if (c.what == LOAD) to_load(&c, whole);
        else if (c.what == SLICE_LINEAR_UNIFORM && below(9) == 0) overflow(&c);
        else if (!whole) spoil(&c);
        lay_nans(c.held == held ? (void *)held : bytes, MOST);
        if (c.what == LOAD) lay_nans(second, MOST);
        if (c.what == COUNT_RECORD) to_count(&c, whole);
        both_sides(&c);
    }
    for (int k = 0; k < 208; k++)
        if (!nans[k / 104][k / 52 % 2][k % 52] && k % 104) fail("no NaN of the kind %d was laid", k);
    finish("patterns", SLICE_LINEAR);
}
