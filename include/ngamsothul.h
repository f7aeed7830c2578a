/* Ngamsothul: table lookup on rectilinear grids. What the archive libngamsothul.a exports; README.md says how to link it.
 *
 * Every call takes any numbers, judges what it is lent, ends, and answers. It allocates nothing, calls nothing (ng_load: memset
 * alone), and keeps nothing between calls, so any number of threads may call at once. What no checker sees, and the caller owes:
 *
 * - A pointer with its length is a buffer of so many elements, aligned as C wants them, that may be read and, where it is not const,
 *   written. Where the length is 0 the pointer may be any, null too: nothing is read or written through it. A tally has no length beside
 *   it: its pointer leads to one ng_tally, aligned and to be written, and is never null.
 * - A buffer that a call writes (a pointer that is not const) overlaps no other buffer of the same call. These are the pairs: in a slice,
 *   out with nodes, values and directions; in ng_load, nodes with values, and each of the two with image; in ng_write, image with nodes
 *   and with values; in ng_count_record, the tally with nodes, values and rec. Buffers that are only read may overlap, or be one. While a
 *   call runs nobody else writes what it is lent, nor reads what it writes: of several threads each has a tally of its own.
 * - The machine rounds to nearest, keeps subnormal numbers and has floating-point exceptions masked, as a C program begins. A program
 *   linked with -ffast-math may flush them; after feenableexcept a sum that overflows, which a call judges, would stop the program.
 * - The stack has NG_STACK_BYTES left, NG_LOAD_STACK_BYTES for ng_load, or NG_COUNT_STACK_BYTES for ng_count_record. These three were
 *   measured, with room to spare; no proof has them.
 *
 * The archive is for x86-64 and C's own calling convention there. It needs no library but for memset, which ng_load calls.
 */
#ifndef NGAMSOTHUL_H
#define NGAMSOTHUL_H

#include <stddef.h>
#include <stdint.h>

#ifdef __cplusplus
static_assert(sizeof(size_t) == 8 && sizeof(double) == 8, "the archive is for x86-64");
extern "C" {
#else
_Static_assert(sizeof(size_t) == 8 && sizeof(double) == 8, "the archive is for x86-64");
#endif

/* ---- Sizes: a table has 1 to 4 axes, 2 to 64 nodes each, at most 4,096 values (the product of the counts). */
enum {
    NG_MOST_AXES = 4,
    NG_FEWEST_NODES = 2, /* of one axis */
    NG_MOST_NODES = 64,
    NG_MOST_CELLS = 63, /* of one axis */
    NG_MOST_VALUES = 4096,
    NG_HEADER_BYTES = 40, /* an image has at least a header */
    NG_MOST_BYTES = 36864,
    NG_MOST_RECORDS = 1000000, /* in one tally */
    NG_STACK_BYTES = 2048,
    NG_LOAD_STACK_BYTES = 36864,
    NG_COUNT_STACK_BYTES = 4096
};

/* ---- Numbers the technician sees, with the axis and the place that an answer gives beside each. */
enum ng_number {
    NG_OK = 0,          /* nothing was wrong                                                                  0, 0 */
    NG_AXES = 1,        /* axes not 1 to 4                                                                    0, 0 */
    NG_COUNT = 2,       /* a count outside 2 to 64                                                            first such axis, 0 */
                        /* .. else product above 4,096                                                        0, 0 */
                        /* .. a lent lower index not below the count less 1                                   0, 1 */
    NG_LENGTH = 3,      /* a lent length differs                      0; place 0 nodes, 1 values, 2 reading, 3 directions */
    NG_NODE = 4,        /* node not finite                                                                    axis, node */
    NG_RISE = 5,        /* node not above the one before                                                      axis, upper node */
    NG_DIFFERENCE = 6,  /* difference of neighbours not finite                                                axis, upper node */
    NG_VALUE = 7,       /* value not finite                                                                   0, flat place */
    NG_UNIFORM = 8,     /* axis not uniform                                                                   axis, interval */
                        /* .. a lent step not finite or not above 0                                           0, 0 */
                        /* .. a lent tolerance not finite or below 0                                          0, 0 */
    NG_DIRECTION = 9,   /* a direction other than 0 lower, 1 upper                                            axis, 0 */
    NG_READING = 10,    /* reading NaN or infinite                                                            axis, 0 */
    NG_RANGE = 11,      /* reading outside its axis                                                           axis; 0 below, 1 above */
    NG_RESULT = 12,     /* computed result not finite                              0, 0; in a slice 0, flat place in the slice */
    NG_HEADER = 13,     /* image header wrong                              0, first byte of the field; under 40 bytes 0 */
    NG_AREA = 14,       /* an area does not begin at a multiple of 8 from 40 on, or ends outside the image */
                        /*                                                        axis, or the number of axes for the values; 0 */
    NG_ROOM = 15,       /* an output buffer too short                                       0; place 0 nodes, 1 values, 2 image */
    NG_SLICE = 16,      /* slice of a one-axis table, no such axis, or not axis 0 for the two linears         0, 0 */
    NG_LIMIT = 17,      /* the tally has 1,000,000 records already                                            0, 0 */
    NG_OVERLAP = 18     /* two of the axis and value areas of an image share a byte */
                        /*              the numbers of the two, lowest pair first: axis, or the number of axes for the values */
};

/* A table's shape. Counts past its axes are not looked at; in a shape that a call gives they are 0. */
typedef struct ng_shape {
    size_t axes;
    size_t counts[4];
} ng_shape;

/* Success is 0, 0, 0 and the value (+0.0 where a call gives none). A refusal has value +0.0, any index, fraction, length or shape beside
 * it is zero, and every lent buffer is as it was. */
typedef struct ng_answer {
    uint32_t number; /* of enum ng_number */
    size_t axis;
    size_t place;
    double value;
} ng_answer;

typedef struct ng_index_answer {
    ng_answer answer;
    size_t index;
} ng_index_answer;

/* found is 1 where a node equals the reading, and index is that node; else both are 0. */
typedef struct ng_exact_answer {
    ng_answer answer;
    uint32_t found;
    size_t index;
} ng_exact_answer;

/* Where between is 0 the reading is the node index, and fraction is +0.0; where it is 1, index is the lower node of a cell. */
typedef struct ng_axis_answer {
    ng_answer answer;
    uint32_t between;
    size_t index;
    double fraction;
} ng_axis_answer;

/* A slice and a load give the shape of what they wrote. */
typedef struct ng_slice_answer {
    ng_answer answer;
    ng_shape shape;
} ng_slice_answer;

typedef struct ng_load_answer {
    ng_answer answer;
    ng_shape shape;
} ng_load_answer;

typedef struct ng_write_answer {
    ng_answer answer;
    size_t length; /* of the image, in bytes */
} ng_write_answer;

/* ---- The seven primitives on one axis. grid_length is the count that 2 judges; axis is always 0. Outside the range they give clamped
 * answers, never 11. Refusals stand in the order in which they are asked; 4, 5, 6 node by node. */

/* The count of nodes strictly below the reading, less 1, held between 0 and n-2. Refusals: 2, 4, 5, 6, 10. */
ng_index_answer ng_locate_lower_index(const double *grid, size_t grid_length, double point);

/* Either the exact node or a lower index with a fraction, (p - lower node) / (upper node - lower node), each operation rounded; outside
 * the range the fraction is not clamped. Refusals: 2, 4, 5, 6, 10, 12 where the fraction is not finite. */
ng_axis_answer ng_locate_axis(const double *grid, size_t grid_length, double point);

/* Inside the range direction 0, Lower, gives the last node at or below the reading and 1, Upper, the first at or above. Below the range
 * they give 0 and 1; above it n-2 and n-1. Refusals: 2, 4, 5, 6, 9, 10. */
ng_index_answer ng_locate_step_index(uint8_t direction, const double *grid, size_t grid_length, double point);

/* lower if that node equals the reading, else lower+1 if that one does, else none. Plus and minus zero are equal.
 * Refusals: 2, 4, 5, 6, 2 (place 1) when lower is not below the count less 1, 10. */
ng_exact_answer ng_exact_index(const double *grid, size_t grid_length, size_t lower, double point);

/* t = (p - first) / step. If t is below 0, the index is 0. Otherwise it is the whole part of t, at most n-2; but where t is infinite or
 * 2^64 and more, 0. Refusals: 2, 4 (first node), 8 (step), 10. */
ng_index_answer ng_locate_lower_index_uniform(double first, double step, size_t n, double point);

/* The step is the first gap. Every later gap differs from it, as rounded, by at most the tolerance. Refusals: 2, 4, 5, 6, 8 (place 0) for
 * the tolerance, 8 for the interval, told by its lower node. */
ng_answer ng_validate_uniform_grid(const double *grid, size_t grid_length, double tolerance);

/* The same by the lent tolerance; where lent is 0 by the default, step times 2^-42, and tolerance is not looked at. */
ng_answer ng_validate_uniform_grid_epsilon(const double *grid, size_t grid_length, uint32_t lent, double tolerance);

/* ---- The four lookups. Nodes lie flat, axis after axis; values lie flat, last axis fastest; point has a reading for each axis.
 * Refusals: 1, 2, 3; then each axis node by node, 4, 5, 6; 7; 10; 11; and what is said beside each. */

/* An exact axis is fixed at its node first. Every other axis is blended, axis 0 first: a * (1 - f) + b * f. 12 is asked last, and is never
 * given: what has passed the rest has a finite value. */
ng_answer ng_interpolate_linear(
    ng_shape shape, const double *nodes, size_t nodes_length, const double *values, size_t values_length,
    const double *point, size_t point_length);

/* No exact shortcut; f = (p - lower node) / first gap. Also 8 of all axes, after 7, and 12, last. */
ng_answer ng_interpolate_linear_uniform(
    ng_shape shape, const double *nodes, size_t nodes_length, const double *values, size_t values_length,
    const double *point, size_t point_length);

/* Per axis, the lower node if (p - lower) is less than (upper - p) as rounded, else the upper. */
ng_answer ng_interpolate_nearest(
    ng_shape shape, const double *nodes, size_t nodes_length, const double *values, size_t values_length,
    const double *point, size_t point_length);

/* Per axis, the step index; each axis has its own direction. Also 3 (place 3) of the directions, and 9 of all axes, after 7. */
ng_answer ng_interpolate_step(
    ng_shape shape, const double *nodes, size_t nodes_length, const double *values, size_t values_length,
    const double *point, size_t point_length, const uint8_t *directions, size_t directions_length);

/* ---- The four slices. One axis is removed: axis 0 for the two linears, any axis for Nearest and Step. Each value in out is what the same
 * rule gives along that axis alone. A slice writes values only; the other axes and their nodes stay, in their order. out may be longer;
 * its rest stays unchanged. Refusals: 1, 2, 3, 16; then each axis node by node, 4, 5, 6; 7; 10 and 11 of the one reading; 15 (place 1);
 * and what is said beside each. */

/* 12 is asked last, and is never given. */
ng_slice_answer ng_slice_linear(
    ng_shape shape, const double *nodes, size_t nodes_length, const double *values, size_t values_length,
    size_t axis, double point, double *out, size_t out_length);

/* Also 8 of all axes, after 7, and 12, last. */
ng_slice_answer ng_slice_linear_uniform(
    ng_shape shape, const double *nodes, size_t nodes_length, const double *values, size_t values_length,
    size_t axis, double point, double *out, size_t out_length);

ng_slice_answer ng_slice_nearest(
    ng_shape shape, const double *nodes, size_t nodes_length, const double *values, size_t values_length,
    size_t axis, double point, double *out, size_t out_length);

/* Directions for all axes are lent. Also 3 (place 3) of the directions, and 9 of all axes, after 7. */
ng_slice_answer ng_slice_step(
    ng_shape shape, const double *nodes, size_t nodes_length, const double *values, size_t values_length,
    const uint8_t *directions, size_t directions_length, size_t axis, double point, double *out, size_t out_length);

/* ---- The table image. Outputs may be longer; their rest stays unchanged. */

/* Reads a table out of an image. Refusals: under 40 bytes (13); byte 0 (13); byte 1 (1); bytes 2-3 (13); length (13), equal to the lent
 * length and 40 to 36,864; counts axis by axis (2, or 13 if unused); product (2); unused offsets (13); bytes 36-39 (13); each area (14);
 * two areas that share a byte (18); room (15, place 0 nodes, 1 values); then 4 to 7.
 *
 * 14 and 18 tell an area by its number: that of an axis is the axis, that of the values the number of axes. 14 gives one, in axis. 18
 * gives two, axis below place: of the pairs 0 1, 0 2, .., 1 2, .. the first that shares a byte. The values, if they are one of the two, are
 * in place. Areas may touch, lie apart and in any order. */
ng_load_answer ng_load(
    const uint8_t *image, size_t image_length, double *nodes, size_t nodes_length, double *values, size_t values_length);

/* Writes a table as an image: the axes from byte 40 without gaps, then the values. Refusals: 1 to 7, then 15 (place 2). */
ng_write_answer ng_write(
    ng_shape shape, const double *nodes, size_t nodes_length, const double *values, size_t values_length,
    uint8_t *image, size_t image_length);

/* ---- The coverage tally: which cells the readings of a table's records fall into, and why records are refused. */

/* Its owner begins it as all zeros, `ng_tally tally = {0};`, lends it to each call, and reads the counts where they stand. A call takes any
 * numbers in it for counts: one that is not begun counts on from what happens to be there, and where that says 1,000,000 records or more
 * every call is refused 17. */
typedef struct ng_tally {
    uint32_t records;                            /* how many were counted, refused ones too */
    uint32_t cells[NG_MOST_AXES][NG_MOST_CELLS]; /* by axis and cell: those answered 0, by their reading on that axis */
    uint32_t numbers[21];                        /* by number: those refused. 1 to 12 can be met; the others stay as they are */
} ng_tally;

/* Counts one record of a table in a tally. A record is a kind byte (0 Linear, 1 LinearUniform, 2 Nearest, 3 Step all lower, 4 Step all
 * upper) and a reading for each axis, an f64 of 8 bytes, little-endian: 1 + 8 * axes bytes, as the program `lookup` reads them.
 *
 * Where the lookup answers it, it counts on each axis in the cell that ng_locate_lower_index names, whatever its kind: a reading on a node
 * in the cell below that node, on the first node in cell 0. Where the lookup refuses it, for its own sake (3 of another length, 9 of an
 * unknown kind, 8, 10, 11, 12) or for the table's (1 to 7), it counts under that number. Both are a success of this call: 0, 0, 0, +0.0.
 * So on each axis of the table the counts of the cells and those of the numbers add up to the records, where one table was lent for all of
 * them. A count that stands at 2^32 - 1 stays there.
 *
 * A file of records that ends within one: lend the piece, which counts under 3. Where nothing is left, lend nothing: no bytes are a record
 * too, of the wrong length.
 *
 * Refusals: 17 where the tally has 1,000,000 records already, whatever the record and the table are; the tally is as it was. */
ng_answer ng_count_record(
    ng_tally *tally, ng_shape shape, const double *nodes, size_t nodes_length, const double *values, size_t values_length,
    const uint8_t *rec, size_t rec_length);

#ifdef __cplusplus
}
#endif

#endif
