/* Plans the slew of examples/quarter-turn.toml, declared in numbers, and prints its dense samples as CSV; on standard error how many of the 16 controls about
 * each axis were held to their limit. */
#include <stdio.h>

#include "quarter_turn.h"

static double workspace[SLEW_WORKSPACE(3, 28)];
static double decision[193], nodes[374];

static int refused(const char *what, size_t number, size_t place)
{
    fprintf(stderr, "%s: refused, number %zu, place %zu\n", what, number, place);
    return 1;
}

int main(void)
{
    size_t told[5], held[12], place, count;
    double duration, max_defect, profile[22], sample[14];
    size_t number = slew_plan_numbers(counts, actuators, body, false, workspace, SLEW_WORKSPACE(3, 28), told, &duration, &max_defect, decision, nodes,
                                      held);
    if (number)
        return refused("plan", number, told[0]);
    number = slew_problem_profile(counts, actuators, body, false, profile, &place);
    if (number)
        return refused("profile", number, place);
    number = slew_sample_count(duration, 17, profile[1], &count);
    if (number)
        return refused("count", number, 0);

    fprintf(stderr, "held to the limit: %zu, %zu, %zu of 16\n", held[0], held[1], held[2]);
    puts("t,qw,qx,qy,qz,wx,wy,wz,tx,ty,tz,hx,hy,hz");
    for (size_t index = 0; index < count; index++) {
        number = slew_sample_path(body + 8, body[27], duration, nodes, 17, profile[1], index, sample, &place);
        if (number)
            return refused("sample", number, place);
        for (size_t k = 0; k < 14; k++)
            printf("%.9f%c", sample[k], k < 13 ? ',' : '\n');
    }
    return 0;
}
