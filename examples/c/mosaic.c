/* Scans a row of tiles with a table that has three wheels. The legs are planned one by one, each as soon as the one before it would be flown: its start momenta are those that the
 * leg before ended with. Where a leg is refused the scan goes on with what it has: the refused tile is left out, and the next one is tried from where the table stands. At the end the
 * tiles that were reached are planned once more as a whole, which gives the same legs. All of it is done by the search, then about one axis. */
#include <stdio.h>
#include <string.h>

#include "slew.h"

#define TILES 6

static const size_t counts[11] = {3};
static const double actuators[100] = {
    [0] = 1, [4] = 1, [8] = 1,              /* three wheels, along x, y and z */
    [24] = 0.5, [25] = 0.5, [26] = 0.5,     /* their torques */
    [32] = 40, [33] = 40, [34] = 40,        /* their momenta */
};
/* the attitudes are not read; the wheels start with what stands at the end */
static const double body[37] = {
    [8] = 10, [12] = 12, [16] = 8,                          /* inertia */
    [17] = 0.5, [18] = 0.5, [19] = 0.5,                     /* torque limits */
    [27] = 9.5367431640625e-07, [28] = 9.5367431640625e-07, /* norm and tie tolerance, 2^-20; no weights: a path that ends at rest is all that is asked */
    [31] = 0.25,                                            /* the third wheel turns already */
};
/* 0, 10, 20 degrees about z; one that is no attitude; 30 degrees; 30 degrees again, which the search refuses and which is a path at rest about one axis */
static const double tiles[TILES][4] = {
    {1, 0, 0, 0},
    {0.99619469809174555, 0, 0, 0.087155742747658166},
    {0.98480775301220802, 0, 0, 0.17364817766693033},
    {0.5, 0, 0, 0.1},
    {0.96592582628906831, 0, 0, 0.25881904510252074},
    {0.96592582628906831, 0, 0, 0.25881904510252074},
};

static double workspace[SLEW_WORKSPACE(3, 28)];
static double decision[193], nodes[374];
static double reached[TILES][4];

/* The whole of what was reached, beside the sums of the scan. */
static int same_as_whole(size_t way, size_t legs, const size_t cursor[5], const double sums[9])
{
    static size_t told[TILES][4];
    static double times[TILES][2], decisions[TILES][193], paths[TILES][374];
    size_t whole[5];
    double total[9];
    slew_mosaic(counts, actuators, body, false, way, (const double(*)[4])reached, legs + 1, told, TILES, times, TILES, decisions, TILES, paths, TILES,
                workspace, SLEW_WORKSPACE(3, 28), whole, total);
    return memcmp(whole, cursor, sizeof whole) == 0 && memcmp(total, sums, sizeof total) == 0 && memcmp(paths[legs - 1], nodes, sizeof nodes) == 0;
}

/* The scan by a way; whether it is the same mosaic as a whole. */
static int scan(size_t way)
{
    size_t cursor[5] = {0}, told[5], held[12];
    double sums[9] = {0}, duration, max_defect, last[374];
    memcpy(sums + 1, body + 29, 8 * sizeof(double));
    memcpy(reached[0], tiles[0], sizeof reached[0]);
    for (size_t k = 1; k < TILES; k++) {
        const double *from = reached[cursor[0]];
        size_t number = slew_mosaic_next(counts, actuators, body, false, way, from, tiles[k], cursor, sums, workspace, SLEW_WORKSPACE(3, 28), told, &duration, &max_defect, decision, nodes,
                                         held);
        if (number) {
            printf("tile %zu: refused, number %zu, place %zu, %zu runs; left out\n", k, number, told[0], told[1]);
            cursor[2] = cursor[3] = cursor[4] = 0; /* the legs so far stand: go on from them */
            continue;
        }
        memcpy(reached[cursor[0]], tiles[k], sizeof reached[0]);
        memcpy(last, nodes, sizeof last);
        printf("tile %zu: %.4f s, %zu runs, the third wheel from %.6f to %.6f N m s\n", k, duration, told[1], nodes[16], sums[3]);
    }
    memcpy(nodes, last, sizeof last);
    printf("%zu legs, %.4f s, %zu runs\n", cursor[0], sums[0], cursor[1]);
    return same_as_whole(way, cursor[0], cursor, sums);
}

int main(void)
{
    puts("by the search");
    int same = scan(SLEW_BY_SEARCH);
    puts("about one axis");
    same &= scan(SLEW_BY_EIGENAXIS);
    if (!same) {
        fprintf(stderr, "planned as a whole it is another mosaic\n");
        return 1;
    }
    return 0;
}
