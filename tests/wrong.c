/* Wrong libraries, which the tests must catch: linked by --wrap=ng_slice_nearest, --wrap=ng_count_record and --wrap=ng_load, WRONG says
 * which. */
#include "ngamsothul.h"

#include <string.h>

#define TAKEN                                                                                                                              \
    ng_shape shape, const double *nodes, size_t nodes_length, const double *values, size_t values_length, size_t axis, double point,      \
        double *out, size_t out_length
ng_slice_answer __real_ng_slice_nearest(TAKEN);
ng_slice_answer __wrap_ng_slice_nearest(TAKEN);

ng_slice_answer __wrap_ng_slice_nearest(TAKEN)
{
    ng_slice_answer r = __real_ng_slice_nearest(shape, nodes, nodes_length, values, values_length, axis, point, out, out_length);
    volatile const double *past = nodes + nodes_length;
    uint64_t bits = 0;
    if (out_length) memcpy(&bits, out, 8);
    switch (WRONG) {
    case 1: /* a refusal gives one NaN another payload */
        if (r.answer.number && (bits & 0x7fffffffffffffff) > 0x7ff0000000000000) bits ^= 2;
        if (out_length) memcpy(out, &bits, 8);
        break;
    case 2: /* one node too many is read */
        (void)*past;
        break;
    case 3: /* one value too many is written, as it was */
        memcpy(out + out_length, &bits, 8);
        break;
    case 4: /* the place is told one too high */
        if (r.answer.number == NG_VALUE) r.answer.place++;
        break;
    }
    return r;
}

#define COUNTED                                                                                                                            \
    ng_tally *tally, ng_shape shape, const double *nodes, size_t nodes_length, const double *values, size_t values_length,                \
        const uint8_t *rec, size_t rec_length
ng_answer __real_ng_count_record(COUNTED);
ng_answer __wrap_ng_count_record(COUNTED);

/* The inner node of axis 0 that an accepted record's first reading is, else 0. */
static size_t inner_node(const ng_tally *tally, const ng_tally *was, ng_shape shape, const double *nodes, const uint8_t *rec)
{
    double first = 0;
    if (!memcmp(tally->cells, was->cells, sizeof was->cells)) return 0;
    memcpy(&first, rec + 1, 8);
    for (size_t i = 1; i + 1 < shape.counts[0]; i++)
        if (nodes[i] == first) return i;
    return 0;
}

ng_answer __wrap_ng_count_record(COUNTED)
{
    static ng_tally was; /* static, so that a call takes no more stack */
    was = *tally;
    ng_answer a = __real_ng_count_record(tally, shape, nodes, nodes_length, values, values_length, rec, rec_length);
    volatile uint32_t *past = (uint32_t *)(tally + 1);
    size_t node = inner_node(tally, &was, shape, nodes, rec);
    switch (WRONG) {
    case 5: /* a record past the limit is counted */
        if (a.number) tally->records++;
        break;
    case 6: /* one count too many is written, as it was */
        *past = *past;
        break;
    case 7: /* a reading on a node counts in the cell above it */
        if (node) tally->cells[0][node - 1]--, tally->cells[0][node]++;
        break;
    }
    return a;
}

#define LOADED                                                                                                                             \
    const uint8_t *image, size_t image_length, double *nodes, size_t nodes_length, double *values, size_t values_length
ng_load_answer __real_ng_load(LOADED);
ng_load_answer __wrap_ng_load(LOADED);

/* Whether an area ends where one of a lower number begins, which the writer's never do; of an image whose header is passed. */
static int ends_at_a_lower(const uint8_t *image)
{
    uint32_t at[5], end[5], axes = image[1], all = 1;
    for (uint32_t k = 0; k <= axes; k++) {
        memcpy(at + k, image + (k < axes ? 16 + 4 * k : 32), 4);
        end[k] = at[k] + 8 * (k < axes ? image[8 + 2 * k] : all);
        if (k < axes) all *= image[8 + 2 * k];
        for (uint32_t i = 0; i < k; i++)
            if (end[k] == at[i]) return 1;
    }
    return 0;
}

ng_load_answer __wrap_ng_load(LOADED)
{
    ng_load_answer r = __real_ng_load(image, image_length, nodes, 0, values, 0), wrong = r; /* without room: 15 comes after 18 */
    switch (WRONG) {
    case 8: /* 18 tells its two areas in the other order */
        wrong.answer.axis = r.answer.place, wrong.answer.place = r.answer.axis;
        if (r.answer.number == NG_OVERLAP) return wrong;
        break;
    case 9: /* areas that touch are refused where the one of the higher number lies first */
        wrong.answer = (ng_answer){.number = NG_OVERLAP, .place = 1};
        if (r.answer.number == NG_ROOM && ends_at_a_lower(image)) return wrong;
        break;
    }
    return __real_ng_load(image, image_length, nodes, nodes_length, values, values_length);
}
