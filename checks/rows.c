/* rows ROWS OBJECTS: writes a made trace of so many rows in order of time, of requests for that many objects by a Zipf law of
   exponent 0.9, at four edges, to standard output. The same numbers give the same trace. */
#include <math.h>
#include <stdint.h>
#include <stdio.h>
#include <stdlib.h>

static uint64_t state = 88172645463325252u;

static uint64_t draw(void) {
    state ^= state << 13;
    state ^= state >> 7;
    return state ^= state << 17;
}

/* bits of a number mixed, by the finalizer of SplitMix64 */
static uint64_t mix(uint64_t n) {
    n = (n ^ n >> 30) * 0xbf58476d1ce4e5b9u;
    n = (n ^ n >> 27) * 0x94d049bb133111ebu;
    return n ^ n >> 31;
}

/* which object has this share of the weights below it */
static uint64_t find(const double *below, uint64_t objects, double share) {
    uint64_t low = 0, high = objects - 1;
    while (low < high) {
        uint64_t middle = (low + high) / 2;
        if (below[middle] <= share) low = middle + 1;
        else high = middle;
    }
    return low;
}

int main(int count, char **words) {
    if (count != 3) return 2;
    uint64_t rows = strtoull(words[1], 0, 10), objects = strtoull(words[2], 0, 10), time = 0;
    double *below = malloc(objects * sizeof *below), all = 0;
    if (!below || !objects) return 1;
    for (uint64_t object = 0; object < objects; object++) below[object] = all += pow((double)object + 1, -0.9);
    setvbuf(stdout, 0, _IOFBF, 1 << 20);
    puts("time,edge,object,size");
    for (uint64_t row = 0; row < rows; row++) {
        uint64_t drawn = draw(), object = find(below, objects, (double)(drawn >> 11) / 9007199254740992.0 * all);
        uint64_t size = (uint64_t)exp((double)(mix(object) >> 11) / 9007199254740992.0 * 12.476649250079015);
        time += drawn & 7;
        if (printf("%llu,%d,%llu,%llu\n", (unsigned long long)time, (int)(drawn >> 3 & 3), (unsigned long long)mix(object ^ 0x5bd1e995),
                   (unsigned long long)(size ? size : 1)) < 0) return 1;
    }
    return fflush(stdout) ? 1 : 0;
}
