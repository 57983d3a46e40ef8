/* How deep the stack of each searching entry of include/slew.h goes, and how long its slowest plan takes, by the number of controls: entries [COUNT]
 *
 * Each call runs once on a painted stack of a thread of its own and once more for its time, on random slews of a laboratory: any axis, 0.01 to 175 degrees, inertias of 8 to 16 kg m2 with
 * products, a box of 0.5 N m, a slew limit in one of three, wheels and thrusters of 0.6 N m on skewed axes, a pyramid of 1 N m s. Times are those of the processor. */
#define _GNU_SOURCE
#include <math.h>
#include <pthread.h>
#include <stdio.h>
#include <stdlib.h>
#include <string.h>
#include <time.h>

#include "slew.h"

#define STACK (1 << 20)
#define PAINT 0xA5

static double workspace[SLEW_WORKSPACE_MOST];
static unsigned char *stack;

/* ---- a problem in numbers, and where its answer goes */
static size_t counts[11], told[5], held[12];
static double actuators[100], body[37], duration, defect, decision[193], nodes[374];
static bool limited, gentle;

static uint64_t state = 88172645463325252u;

/* from 0 to 1, by xorshift */
static double drawn(void)
{
    state ^= state << 13;
    state ^= state >> 7;
    state ^= state << 17;
    return (double)(state >> 11) * 0x1p-53;
}

static double between(double low, double high)
{
    return low + (high - low) * drawn();
}

static void draw_axis(double axis[3])
{
    double size;
    do {
        for (int k = 0; k < 3; k++)
            axis[k] = between(-1, 1);
        size = sqrt(axis[0] * axis[0] + axis[1] * axis[1] + axis[2] * axis[2]);
    } while (size < 0.1 || size > 1);
    for (int k = 0; k < 3; k++)
        axis[k] /= size;
}

/* one of the body's axes, askew; past the third any axis */
static void draw_skewed(double axis[3], int i)
{
    draw_axis(axis);
    for (int k = 0; k < 3 && i < 3; k++)
        axis[k] = (k == i) + between(-0.4, 0.4);
}

static void draw_turn(double q[4], double angle)
{
    double axis[3];
    draw_axis(axis);
    q[0] = cos(angle / 2);
    for (int k = 0; k < 3; k++)
        q[1 + k] = axis[k] * sin(angle / 2);
}

static void product(const double a[4], const double b[4], double c[4])
{
    c[0] = a[0] * b[0] - a[1] * b[1] - a[2] * b[2] - a[3] * b[3];
    c[1] = a[0] * b[1] + a[1] * b[0] + a[2] * b[3] - a[3] * b[2];
    c[2] = a[0] * b[2] - a[1] * b[3] + a[2] * b[0] + a[3] * b[1];
    c[3] = a[0] * b[3] + a[1] * b[2] - a[2] * b[1] + a[3] * b[0];
}

static void draw_body(bool pointing)
{
    memset(body, 0, sizeof body);
    double turn[4], angle = (drawn() < 1.0 / 6 ? pow(10, between(-2, 0)) : between(1, 175)) * acos(-1) / 180;
    draw_turn(body, between(0, 3));
    draw_turn(turn, angle);
    product(body, turn, body + 4);
    double a = between(-0.5, 0.5), b = between(-0.5, 0.5), c = between(-0.5, 0.5);
    double inertia[9] = {between(8, 16), a, b, a, between(8, 16), c, b, c, between(8, 16)};
    memcpy(body + 8, inertia, sizeof inertia);
    body[17] = body[18] = body[19] = 0.5;
    limited = drawn() < 1.0 / 3;
    body[20] = between(0.3, 0.95) * 0.17 * sqrt(angle);
    body[21] = drawn() < 0.5;
    body[22] = drawn() < 0.3 ? drawn() : 0;
    body[24] = pointing ? between(0.001, 1) : 0;
    body[25] = drawn() < 0.3 ? drawn() : 0;
    body[27] = body[28] = 0x1p-20;
}

/* so many wheels (w), thrusters (t), a pyramid (p), or none (n) */
static void draw_actuators(char kind, int controls)
{
    memset(counts, 0, sizeof counts);
    memset(actuators, 0, sizeof actuators);
    counts[0] = kind == 'w' ? controls : 0;
    counts[1] = kind == 't' ? controls : 0;
    counts[2] = kind == 'p';
    for (int i = 0; i < (int)counts[0]; i++) {
        draw_skewed(actuators + 3 * i, i);
        actuators[24 + i] = 0.6;
        actuators[32 + i] = 50;
        body[29 + i] = drawn() < 0.5 ? 0 : between(-4, 4);
    }
    for (int i = 0; i < (int)counts[1]; i++) {
        draw_skewed(actuators + 48 + 3 * i, i);
        actuators[84 + i] = 0.6;
    }
    double pyramid[4] = {0.955, 1, 0.6, 0.001};
    memcpy(actuators + 96, pyramid, sizeof pyramid);
}

/* ---- the entries */
static void *nothing(void *unused)
{
    return unused;
}

static void *plan(void *unused)
{
    slew_plan_numbers(counts, actuators, body, limited, workspace, SLEW_WORKSPACE_MOST, told, &duration, &defect, decision, nodes, held);
    return unused;
}

static void *plan_eigenaxis(void *unused)
{
    slew_plan_eigenaxis_numbers(counts, actuators, body, limited, gentle, workspace, SLEW_WORKSPACE_MOST, told, &duration, &defect, decision, nodes, held);
    return unused;
}

static void *reconstruct(void *unused)
{
    size_t place, runs;
    slew_reconstruct(counts, actuators, body, limited, decision, nodes, &defect, &place, &runs);
    return unused;
}

/* of the text in `text`, as the programs have it */
static uint8_t text[4097], answer[SLEW_ANSWER];
static size_t text_bytes;

static void *plan_text(void *unused)
{
    slew_plan(text, text_bytes, workspace, SLEW_WORKSPACE_MOST, answer, sizeof answer);
    return unused;
}

static void *sample_text(void *unused)
{
    double sample[14];
    slew_sample(text, text_bytes, workspace, SLEW_WORKSPACE_MOST, 100, 0.0, 50, sample, 14);
    return unused;
}

/* ---- measures */
static size_t depth(void *(*entry)(void *))
{
    pthread_attr_t attributes;
    pthread_t thread;
    memset(stack, PAINT, STACK);
    if (pthread_attr_init(&attributes) || pthread_attr_setstack(&attributes, stack, STACK) || pthread_create(&thread, &attributes, entry, NULL))
        exit(1);
    pthread_join(thread, NULL);
    pthread_attr_destroy(&attributes);
    size_t clean = 0;
    while (stack[clean] == PAINT)
        clean++;
    return STACK - clean;
}

static double milliseconds(void *(*entry)(void *))
{
    struct timespec begin, end;
    clock_gettime(CLOCK_THREAD_CPUTIME_ID, &begin);
    entry(NULL);
    clock_gettime(CLOCK_THREAD_CPUTIME_ID, &end);
    return 1e3 * (double)(end.tv_sec - begin.tv_sec) + 1e-6 * (double)(end.tv_nsec - begin.tv_nsec);
}

/* the deepest stack and the slowest call of COUNT problems, as a row of a table */
static void measure(const char *name, void *(*entry)(void *), char kind, int controls, bool pointing, int count, size_t empty)
{
    size_t deepest = 0;
    double slowest = 0;
    for (int i = 0; i < count; i++) {
        draw_body(pointing);
        draw_actuators(kind, controls);
        gentle = drawn() < 0.5;
        size_t deep = depth(entry) - empty;
        double took = milliseconds(entry);
        deepest = deep > deepest ? deep : deepest;
        slowest = took > slowest ? took : slowest;
    }
    printf("| %s | %c %d%s | %zu | %.2f |\n", name, kind, controls, pointing ? ", pointing" : "", deepest, slowest);
    fflush(stdout);
}

int main(int argc, char **argv)
{
    static const struct { char kind; int controls; } kinds[] = {{'n', 3}, {'w', 3}, {'t', 3}, {'w', 4}, {'p', 4}, {'w', 8}, {'t', 12}};
    int count = argc > 1 ? atoi(argv[1]) : 300;
    if (posix_memalign((void **)&stack, 4096, STACK))
        return 1;
    size_t empty = depth(nothing);
    puts("| entry | actuators, controls | stack, bytes | slowest, ms |\n|---|---|---|---|");
    for (size_t k = 0; k < sizeof kinds / sizeof *kinds; k++) {
        measure("slew_plan_numbers", plan, kinds[k].kind, kinds[k].controls, false, count, empty);
        measure("slew_plan_numbers", plan, kinds[k].kind, kinds[k].controls, true, count, empty);
        measure("slew_plan_eigenaxis_numbers", plan_eigenaxis, kinds[k].kind, kinds[k].controls, false, count, empty);
        measure("slew_reconstruct", reconstruct, kinds[k].kind, kinds[k].controls, false, 10, empty);
    }
    FILE *file = argc > 2 ? fopen(argv[2], "rb") : NULL;
    if (!file)
        return 0;
    text_bytes = fread(text, 1, sizeof text, file);
    fclose(file);
    printf("| slew_plan | %s | %zu | |\n| slew_sample | %s | %zu | |\n", argv[2], depth(plan_text) - empty, argv[2], depth(sample_text) - empty);
    return 0;
}
