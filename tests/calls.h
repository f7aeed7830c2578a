/* Every call of the library, made over buffers that lie between pages which may not be touched, on a stack whose use is measured.
 * An input is read-only while the call runs; an output may be written, and is compared with what it held. */
#define _GNU_SOURCE
#include "ngamsothul.h"

#include <math.h>
#include <stdarg.h>
#include <stdio.h>
#include <stdlib.h>
#include <string.h>
#include <sys/mman.h>
#include <ucontext.h>
#include <unistd.h>

/* ---- the calls, by number, and the refusals that each can give, in the header's words */
enum what {
    LOCATE_LOWER_INDEX, LOCATE_AXIS, LOCATE_STEP_INDEX, EXACT_INDEX, LOCATE_LOWER_INDEX_UNIFORM, VALIDATE, VALIDATE_EPSILON,
    LINEAR, LINEAR_UNIFORM, NEAREST, STEP, SLICE_LINEAR, SLICE_LINEAR_UNIFORM, SLICE_NEAREST, SLICE_STEP, LOAD, WRITE, COUNT_RECORD,
    CALLS, NO_CALL = CALLS
};

#define N(n) (1u << (n))
#define NODES (N(2) | N(4) | N(5) | N(6))
#define TABLE (N(1) | N(3) | N(7) | NODES)
#define LOOKUP (TABLE | N(10) | N(11))
#define SLICE (LOOKUP | N(15) | N(16))

static const struct { const char *name; unsigned refusals; } known[CALLS] = {
    {"ng_locate_lower_index", NODES | N(10)},
    {"ng_locate_axis", NODES | N(10) | N(12)},
    {"ng_locate_step_index", NODES | N(9) | N(10)},
    {"ng_exact_index", NODES | N(10)},
    {"ng_locate_lower_index_uniform", N(2) | N(4) | N(8) | N(10)},
    {"ng_validate_uniform_grid", NODES | N(8)},
    {"ng_validate_uniform_grid_epsilon", NODES | N(8)},
    {"ng_interpolate_linear", LOOKUP},
    {"ng_interpolate_linear_uniform", LOOKUP | N(8) | N(12)},
    {"ng_interpolate_nearest", LOOKUP},
    {"ng_interpolate_step", LOOKUP | N(9)},
    {"ng_slice_linear", SLICE},
    {"ng_slice_linear_uniform", SLICE | N(8) | N(12)},
    {"ng_slice_nearest", SLICE},
    {"ng_slice_step", SLICE | N(9)},
    {"ng_load", (TABLE ^ N(3)) | N(13) | N(14) | N(15) | N(18)},
    {"ng_write", TABLE | N(15)},
    {"ng_count_record", N(17)},
};

/* What is passed. A call looks at what it takes; grid is nodes, lower, axis or n is at, and rec is image. */
typedef struct {
    enum what what;
    ng_shape shape;
    const double *nodes, *values, *point;
    size_t nodes_length, values_length, point_length;
    const uint8_t *directions, *image;
    size_t directions_length, image_length;
    size_t at;
    double x, first, step, tolerance;
    uint8_t direction;
    uint32_t lent;
    size_t room, second_room; /* of the outputs: values of a slice, the image; of a load, the nodes and the values */
    const void *held, *second_held; /* what the outputs hold at first; a tally, which has no room beside it */
    int nulls; /* lend null in the place of each empty buffer */
} call;

/* What is given; what a call does not give is 0. */
typedef struct {
    ng_answer answer;
    size_t index, length;
    uint32_t flag;
    double fraction;
    ng_shape shape;
} given;

static void fail(const char *format, ...)
{
    va_list list;
    va_start(list, format);
    fputs("FAILED: ", stderr);
    vfprintf(stderr, format, list);
    fputc('\n', stderr);
    va_end(list);
    exit(1);
}

/* ---- rooms between guarded pages */
enum { ROOM = 1 << 16, NODES_ROOM = 0, VALUES_ROOM, POINT_ROOM, DIRECTIONS_ROOM, IMAGE_ROOM, OUT_ROOM, SECOND_ROOM, ROOMS };
static unsigned char *rooms[ROOMS];
static unsigned char before[2][ROOM]; /* what the two outputs' rooms held */

static unsigned char *guarded(size_t size)
{
    size_t page = (size_t)sysconf(_SC_PAGESIZE);
    unsigned char *all = mmap(NULL, size + 2 * page, PROT_NONE, MAP_PRIVATE | MAP_ANONYMOUS, -1, 0);
    if (all == MAP_FAILED || mprotect(all + page, size, PROT_READ | PROT_WRITE)) fail("no room");
    return all + page;
}

/* A buffer at the start of its room, or at its end. */
static void *lend(int room, const void *bytes, size_t size, int at_end, int nulls)
{
    if (size > ROOM) fail("a buffer of %zu bytes is too long for the tests", size);
    unsigned char *place = rooms[room] + (at_end ? ROOM - size : 0);
    if (size) memcpy(place, bytes, size);
    if (room < OUT_ROOM && mprotect(rooms[room], ROOM, PROT_READ)) fail("mprotect");
    return size == 0 && nulls ? NULL : place;
}

/* ---- a stack whose use is measured */
enum { STACK = 1 << 16, PAINT = 0xa5 };
static unsigned char *stack;
static call now;
static given result;
static size_t stack_bare, stack_used[CALLS];

static void make_now(void)
{
    const call *c = &now;
    memset(&result, 0, sizeof result);
#define GRID c->nodes, c->nodes_length
#define A_TABLE c->shape, c->nodes, c->nodes_length, c->values, c->values_length
#define A_POINT c->point, c->point_length
#define DIRECTIONS c->directions, c->directions_length
#define OUT (double *)c->held, c->room
#define INDEX(made) do { ng_index_answer r = made; result.answer = r.answer; result.index = r.index; } while (0)
#define CUT(made) do { ng_slice_answer r = made; result.answer = r.answer; result.shape = r.shape; } while (0)
    switch (c->what) {
    case LOCATE_LOWER_INDEX: INDEX(ng_locate_lower_index(GRID, c->x)); break;
    case LOCATE_AXIS: {
        ng_axis_answer r = ng_locate_axis(GRID, c->x);
        result.answer = r.answer, result.flag = r.between, result.index = r.index, result.fraction = r.fraction;
        break;
    }
    case LOCATE_STEP_INDEX: INDEX(ng_locate_step_index(c->direction, GRID, c->x)); break;
    case EXACT_INDEX: {
        ng_exact_answer r = ng_exact_index(GRID, c->at, c->x);
        result.answer = r.answer, result.flag = r.found, result.index = r.index;
        break;
    }
    case LOCATE_LOWER_INDEX_UNIFORM: INDEX(ng_locate_lower_index_uniform(c->first, c->step, c->at, c->x)); break;
    case VALIDATE: result.answer = ng_validate_uniform_grid(GRID, c->tolerance); break;
    case VALIDATE_EPSILON: result.answer = ng_validate_uniform_grid_epsilon(GRID, c->lent, c->tolerance); break;
    case LINEAR: result.answer = ng_interpolate_linear(A_TABLE, A_POINT); break;
    case LINEAR_UNIFORM: result.answer = ng_interpolate_linear_uniform(A_TABLE, A_POINT); break;
    case NEAREST: result.answer = ng_interpolate_nearest(A_TABLE, A_POINT); break;
    case STEP: result.answer = ng_interpolate_step(A_TABLE, A_POINT, DIRECTIONS); break;
    case SLICE_LINEAR: CUT(ng_slice_linear(A_TABLE, c->at, c->x, OUT)); break;
    case SLICE_LINEAR_UNIFORM: CUT(ng_slice_linear_uniform(A_TABLE, c->at, c->x, OUT)); break;
    case SLICE_NEAREST: CUT(ng_slice_nearest(A_TABLE, c->at, c->x, OUT)); break;
    case SLICE_STEP: CUT(ng_slice_step(A_TABLE, DIRECTIONS, c->at, c->x, OUT)); break;
    case LOAD: {
        ng_load_answer r = ng_load(c->image, c->image_length, OUT, (double *)c->second_held, c->second_room);
        result.answer = r.answer, result.shape = r.shape;
        break;
    }
    case WRITE: {
        ng_write_answer r = ng_write(A_TABLE, (uint8_t *)c->held, c->room);
        result.answer = r.answer, result.length = r.length;
        break;
    }
    case COUNT_RECORD: result.answer = ng_count_record((ng_tally *)c->held, A_TABLE, c->image, c->image_length); break;
    case NO_CALL: break;
    }
}

/* Makes the call that stands in now, and gives how deep its stack went. */
static size_t on_stack(void)
{
#if defined __SANITIZE_ADDRESS__
    make_now(); /* the sanitizers have a stack of their own */
    return 0;
#else
    static ucontext_t here, there;
    memset(stack, PAINT, STACK);
    if (getcontext(&there)) fail("getcontext");
    there.uc_stack.ss_sp = stack, there.uc_stack.ss_size = STACK, there.uc_link = &here;
    makecontext(&there, make_now, 0);
    if (swapcontext(&here, &there)) fail("swapcontext");
    size_t clean = 0;
    while (clean < STACK && stack[clean] == PAINT) clean++;
    return STACK - clean;
#endif
}

/* ---- a call, made twice: its buffers at the starts of their rooms, and at their ends */
static unsigned seen[CALLS];
static unsigned long refused_calls, made_calls;

static void begin(void)
{
    for (int r = 0; r < ROOMS; r++) rooms[r] = guarded(ROOM);
    stack = guarded(STACK);
    now.what = NO_CALL;
    stack_bare = on_stack();
}

/* An output after a call: its first bytes may have been written, and no others. */
static void kept(const call *c, int room, const unsigned char *place, size_t written)
{
    const unsigned char *was = before[room - OUT_ROOM], *is = rooms[room];
    size_t from = (size_t)(place - is), to = from + written;
    if (!memcmp(is, was, from) && !memcmp(is + to, was + to, ROOM - to)) return;
    for (size_t i = 0; i < ROOM; i++)
        if (is[i] != was[i] && (i < from || i >= to))
            fail("%s, number %u: byte %zd of output %d was %02x and is %02x; %zu bytes were to be written", known[c->what].name,
                result.answer.number, (ssize_t)i - (ssize_t)from, room - OUT_ROOM, was[i], is[i], written);
}

static void unchanged(const call *c, const char *name, const void *lent, const void *is, size_t size)
{
    if (size && memcmp(lent, is, size)) fail("%s changed its input %s", known[c->what].name, name);
}

/* Lends what a call passes, and keeps what the outputs' rooms hold. */
static void lend_all(const call *c, int at_end, size_t size, size_t second)
{
    for (int r = 0; r < OUT_ROOM; r++)
        if (mprotect(rooms[r], ROOM, PROT_READ | PROT_WRITE)) fail("mprotect");
    now = *c;
    now.nodes = lend(NODES_ROOM, c->nodes, c->nodes_length * 8, at_end, c->nulls);
    now.values = lend(VALUES_ROOM, c->values, c->values_length * 8, at_end, c->nulls);
    now.point = lend(POINT_ROOM, c->point, c->point_length * 8, at_end, c->nulls);
    now.directions = lend(DIRECTIONS_ROOM, c->directions, c->directions_length, at_end, c->nulls);
    now.image = lend(IMAGE_ROOM, c->image, c->image_length, at_end, c->nulls);
    now.held = lend(OUT_ROOM, c->held, size, at_end, c->nulls);
    now.second_held = lend(SECOND_ROOM, c->second_held, second, at_end, c->nulls);
    memcpy(before[0], rooms[OUT_ROOM], ROOM);
    memcpy(before[1], rooms[SECOND_ROOM], ROOM);
}

/* Every byte that the call was not to write is as it was. */
static void compare_all(const call *c, size_t size, size_t second)
{
    size_t wrote = 0, wrote_second = 0, all = 1, sum = 0;
    for (size_t a = 0; a < result.shape.axes && a < 4; a++) all *= result.shape.counts[a], sum += result.shape.counts[a];
    if (result.answer.number == 0 && c->what >= SLICE_LINEAR) {
        wrote = c->what == WRITE ? result.length : c->what == LOAD ? sum * 8 : c->what == COUNT_RECORD ? size : all * 8;
        if (c->what == LOAD) wrote_second = all * 8;
    }
    if (wrote > size || wrote_second > second) fail("%s says that it wrote past its room", known[c->what].name);
    kept(c, OUT_ROOM, now.held ? now.held : rooms[OUT_ROOM], wrote);
    kept(c, SECOND_ROOM, now.second_held ? now.second_held : rooms[SECOND_ROOM], wrote_second);
    unchanged(c, "nodes", c->nodes, now.nodes, c->nodes_length * 8);
    unchanged(c, "values", c->values, now.values, c->values_length * 8);
    unchanged(c, "point", c->point, now.point, c->point_length * 8);
    unchanged(c, "directions", c->directions, now.directions, c->directions_length);
    unchanged(c, "image", c->image, now.image, c->image_length);
}

/* A success is 0, 0, 0 and what it gives; a refusal its number, axis and place, and zeros. */
static void judge(const call *c)
{
    static const ng_shape no_shape;
    static const double plus_zero;
    ng_answer a = result.answer;
    if (a.number > 18) fail("%s gave the number %u", known[c->what].name, a.number);
    seen[c->what] |= N(a.number);
    if (a.number == 0) {
        made_calls++;
        if (a.axis || a.place) fail("%s: a success at %zu, %zu", known[c->what].name, a.axis, a.place);
        return;
    }
    refused_calls++;
    if (memcmp(&a.value, &plus_zero, 8) || memcmp(&result.fraction, &plus_zero, 8) || memcmp(&result.shape, &no_shape, sizeof no_shape)
        || result.index || result.length || result.flag)
        fail("%s: the refusal %u gives more than its number, axis and place", known[c->what].name, a.number);
}

static given made(const call *c, int at_end)
{
    size_t size = c->what == COUNT_RECORD ? sizeof(ng_tally) : c->room * (c->what == WRITE ? 1 : 8), second = c->second_room * 8;
    lend_all(c, at_end, size, second);
    size_t depth = on_stack() - stack_bare;
    if (depth > stack_used[c->what]) stack_used[c->what] = depth;
    compare_all(c, size, second);
    judge(c);
    return result;
}

static given both_sides(const call *c)
{
    given start = made(c, 0), end = made(c, 1);
    if (start.answer.number != end.answer.number || start.answer.axis != end.answer.axis || start.answer.place != end.answer.place)
        fail("%s answers two things", known[c->what].name);
    return end;
}

/* The end: every refusal that a call can give was seen, and no other; the stack was enough. */
static void finish(const char *name, int first)
{
    for (int w = first; w < CALLS; w++) {
        if (seen[w] != (known[w].refusals | 1)) fail("%s: numbers %#x were seen, of %#x", known[w].name, seen[w], known[w].refusals | 1);
        size_t bytes = w == LOAD ? NG_LOAD_STACK_BYTES : w == COUNT_RECORD ? NG_COUNT_STACK_BYTES : NG_STACK_BYTES;
        if (stack_used[w] > bytes) fail("%s took %zu bytes of stack", known[w].name, stack_used[w]);
    }
    size_t most = 0;
    for (int w = first; w < CALLS; w++)
        if (w != LOAD && w != COUNT_RECORD && stack_used[w] > most) most = stack_used[w];
    printf("%s: %lu refused and %lu made calls", name, refused_calls, made_calls);
    if (most) printf("; stack %zu bytes, ng_load %zu, ng_count_record %zu", most, stack_used[LOAD], stack_used[COUNT_RECORD]);
    putchar('\n');
}
