/* Times ng_load on one table, as the writer lays it: load COUNTS LOADS, counts as 8x8x8x8. Prints the nanoseconds of a load, in processor
 * time. Ends with 1 where a load is refused or gives another table, 2 where the table cannot be written. */
#define _POSIX_C_SOURCE 200809L
#include "ngamsothul.h"

#include <stdio.h>
#include <stdlib.h>
#include <string.h>
#include <time.h>

static double nodes[256], values[4096], loaded_nodes[256], loaded_values[4096];
static uint8_t image[NG_MOST_BYTES];

static ng_load_answer load(size_t length)
{
    ng_load_answer r = ng_load(image, length, loaded_nodes, 256, loaded_values, 4096);
    if (r.answer.number) {
        fprintf(stderr, "load: refused %u, %zu, %zu\n", r.answer.number, r.answer.axis, r.answer.place);
        exit(1);
    }
    return r;
}

static double now(void)
{
    struct timespec t;
    if (clock_gettime(CLOCK_PROCESS_CPUTIME_ID, &t)) exit(2);
    return 1e9 * (double)t.tv_sec + (double)t.tv_nsec;
}

/* Of other words the shape has no axes, which the writer refuses. */
static ng_shape shape_of(char *word)
{
    ng_shape s = {0};
    for (;; word++) {
        s.counts[s.axes++] = strtoul(word, &word, 10);
        if (s.axes == 4 || *word != 'x') break;
    }
    if (*word) s.axes = 0;
    return s;
}

int main(int words, char **word)
{
    long loads = words == 3 ? atol(word[2]) : 0;
    ng_shape s = loads > 0 ? shape_of(word[1]) : (ng_shape){0};
    size_t n = 0, m = 1;
    for (size_t a = 0; a < s.axes; a++) n += s.counts[a], m *= s.counts[a];
    for (size_t i = 0; i < 256; i++) nodes[i] = (double)i;
    for (size_t i = 0; i < 4096; i++) values[i] = (double)i;
    ng_write_answer w = ng_write(s, nodes, n, values, m, image, sizeof image);
    if (w.answer.number) return fprintf(stderr, "load: no loads, or a table that is refused: %u\n", w.answer.number), 2;
    ng_load_answer r = load(w.length);
    if (memcmp(&r.shape, &s, sizeof s) || memcmp(loaded_nodes, nodes, 8 * n) || memcmp(loaded_values, values, 8 * m))
        return fprintf(stderr, "load: another table came back\n"), 1;
    double begun = now();
    for (long i = 0; i < loads; i++) load(w.length);
    printf("%.1f\n", (now() - begun) / (double)loads);
}
