/* Plans the slew of examples/quarter-turn.toml, declared in numbers, about one axis: at the shortest duration that the search over durations finds, then gently. Prints duration and forward runs of each. */
#include <stdio.h>

#include "quarter_turn.h"

static double workspace[SLEW_WORKSPACE(3, 28)];
static double decision[193], nodes[374];

int main(void)
{
    for (int gentle = 0; gentle < 2; gentle++) {
        size_t told[5], held[12];
        double duration, max_defect;
        size_t number = slew_plan_eigenaxis_numbers(counts, actuators, body, false, gentle, workspace, SLEW_WORKSPACE(3, 28), told, &duration, &max_defect, decision, nodes,
                                                    held);
        if (number) {
            fprintf(stderr, "refused, number %zu, place %zu\n", number, told[0]);
            return 1;
        }
        printf("%s %.6f s, %zu runs\n", gentle ? "gentle" : "fastest", duration, told[1]);
    }
    return 0;
}
