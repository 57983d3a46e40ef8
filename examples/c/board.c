/* Plans the slew of examples/quarter-turn.toml and prints its dense samples as the drive board takes them, 13 whole numbers a line: attitude in units of 2^-30, rate, torque and body
 * momentum in units of 2^-20. With the word `each` every sample is asked for by itself, read back, and held to the dense sample in doubles. */
#include <math.h>
#include <stdio.h>
#include <stdlib.h>

#include "quarter_turn.h"

static double workspace[SLEW_WORKSPACE(3, 28)];
static double decision[193], nodes[374];
static double duration;

static int refused(const char *what, size_t number, size_t place)
{
    fprintf(stderr, "%s: refused, number %zu, place %zu\n", what, number, place);
    return 1;
}

static void print_row(const int32_t row[13])
{
    for (size_t k = 0; k < 13; k++)
        printf("%ld%c", (long)row[k], k < 12 ? ' ' : '\n');
}

static int print_list(size_t count, double alpha)
{
    size_t written, place;
    int32_t(*rows)[13] = malloc(count * sizeof *rows);
    if (!rows)
        return 1;
    size_t number = slew_board_list(body + 8, body[27], duration, nodes, 17, alpha, rows, count, &written, &place);
    for (size_t index = 0; index < written; index++)
        print_row(rows[index]);
    free(rows);
    return number ? refused("list", number, place) : 0;
}

/* A number stands for a float within half a unit of the part, and is written again as itself. */
static int wrong(double part, int32_t number, bool coarse)
{
    int32_t again;
    double read = slew_board_read(number, coarse);
    return slew_board_part(read, coarse, &again) != 0 || again != number || fabs(read - part) > (coarse ? 0x1p-21 : 0x1p-31);
}

static int print_each(size_t count, double alpha)
{
    for (size_t index = 0; index < count; index++) {
        int32_t row[13];
        double sample[14];
        size_t place, number = slew_board_sample(body + 8, body[27], duration, nodes, 17, alpha, index, row, &place);
        if (number)
            return refused("sample", number, place);
        slew_sample_path(body + 8, body[27], duration, nodes, 17, alpha, index, sample, &place);
        for (size_t k = 0; k < 13; k++)
            if (wrong(sample[k + 1], row[k], k < 4 ? SLEW_FINE : SLEW_COARSE)) {
                fprintf(stderr, "sample %zu, part %zu: %ld is not nearest\n", index, k, (long)row[k]);
                return 1;
            }
        print_row(row);
    }
    return 0;
}

int main(int argc, char **argv)
{
    (void)argv;
    size_t told[5], held[12], place, count;
    double max_defect, profile[22];
    size_t number = slew_plan_numbers(counts, actuators, body, false, workspace, SLEW_WORKSPACE(3, 28), told, &duration, &max_defect, decision, nodes,
                                      held);
    if (number)
        return refused("plan", number, told[0]);
    number = slew_problem_profile(counts, actuators, body, false, profile, &place);
    if (number)
        return refused("profile", number, place);
    number = slew_sample_count(duration, 17, profile[1], &count);
    if (number)
        return refused("count", number, 0);
    return argc > 1 ? print_each(count, profile[1]) : print_list(count, profile[1]);
}
