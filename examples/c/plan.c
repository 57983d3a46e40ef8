/* Plans the problem of a file and prints the answer: plan examples/quarter-turn.slew
 * With a count and an index it prints that dense sample of the path instead: plan examples/quarter-turn.slew 100 50 */
#include <stdio.h>
#include <stdlib.h>

#include "slew.h"

/* A text of more than 4,096 bytes is refused, so one byte more is all that is looked at. */
static uint8_t text[4097];
static double workspace[SLEW_WORKSPACE_MOST];
static uint8_t answer[SLEW_ANSWER];

/* Time, attitude, rate, torque, body momentum; or a refusal's number, its place and its runs. */
static int print_sample(size_t length, size_t count, size_t index)
{
    double out[14];
    uint64_t number = slew_sample(text, length, workspace, SLEW_WORKSPACE_MOST, count, 0.0, index, out, 14);
    if (number) {
        fprintf(stderr, "refused, number %u, place %.0f, runs %.0f\n", (unsigned)number, out[0], out[1]);
        return 1;
    }
    for (size_t k = 0; k < 14; k++)
        printf("%.9f%c", out[k], k < 13 ? ',' : '\n');
    return 0;
}

int main(int argc, char **argv)
{
    if (argc != 2 && argc != 4) {
        fputs("usage: plan FILE [COUNT INDEX]\n", stderr);
        return 2;
    }
    FILE *file = fopen(argv[1], "rb");
    if (!file) {
        perror(argv[1]);
        return 2;
    }
    size_t length = fread(text, 1, sizeof text, file);
    fclose(file);
    if (argc == 4)
        return print_sample(length, strtoul(argv[2], NULL, 10), strtoul(argv[3], NULL, 10));

    size_t bytes = slew_plan(text, length, workspace, SLEW_WORKSPACE_MOST, answer, sizeof answer);
    fwrite(answer, 1, bytes, stdout);
    return 0;
}
