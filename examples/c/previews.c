/* Ask, then commit, with three wheels: previews a tenth of a turn about z and one about x from wheels at rest, starts the first, and sees the second refused with 26, since the record has changed. Previewed again it is
 * started. Prints the answers and the record, in N m s. */
#include <stdio.h>
#include <string.h>

#include "slew.h"

/* What a caller holds of a preview. */
struct preview {
    size_t refusal, told[5], held[12], began_wheels;
    double duration, max_defect, decision[193], nodes[374], began[8];
};

static double workspace[SLEW_WORKSPACE(3, 28)];
static size_t record_wheels = 3;
static double record[8];

static const size_t counts[11] = {3};
static double actuators[100], body[37];

/* Three wheels along the body's axes, and a tenth of a turn about one of them. */
static void declare(size_t axis)
{
    static const double inertia[3] = {10, 12, 8};
    memset(actuators, 0, sizeof actuators);
    memset(body, 0, sizeof body);
    for (size_t k = 0; k < 3; k++) {
        actuators[4 * k] = 1;      /* axes */
        actuators[24 + k] = 0.5;   /* largest torques */
        actuators[32 + k] = 20;    /* largest momenta */
        body[8 + 4 * k] = inertia[k];
        body[17 + k] = 0.5;        /* torque limits */
    }
    body[0] = 1;                   /* from the identity */
    body[4] = 0.9510565162951535;  /* cosine and sine of 18 degrees */
    body[5 + axis] = 0.3090169943749474;
    body[21] = 1;                  /* the weight of time */
    body[27] = body[28] = 0x1p-20; /* tolerances */
}

static void ask(struct preview *p, const char *name)
{
    p->refusal = slew_preview_numbers(counts, actuators, body, false, record_wheels, record, workspace, SLEW_WORKSPACE(3, 28),
                                      p->told, &p->duration, &p->max_defect, p->decision, p->nodes, p->held, &p->began_wheels, p->began);
    if (p->refusal)
        printf("%s: previewed, refusal %zu\n", name, p->refusal);
    else
        printf("%s: previewed, %.6f s\n", name, p->duration);
}

static size_t start(const struct preview *p, const char *name)
{
    size_t place, number = slew_start(&record_wheels, record, p->refusal, p->began_wheels, p->began, p->told[3], p->nodes, &place);
    if (number)
        printf("%s: not started, refusal %zu at wheel %zu\n", name, number, place);
    else
        printf("%s: started\n", name);
    printf("on record: %a %a %a\n", record[0], record[1], record[2]);
    return number;
}

int main(void)
{
    static struct preview first, second;
    declare(2);
    ask(&first, "about z");
    declare(0);
    ask(&second, "about x");
    size_t begun = start(&first, "about z");
    size_t refused = start(&second, "about x");
    ask(&second, "about x");
    size_t again = start(&second, "about x");
    return begun == 0 && refused == 26 && again == 0 ? 0 : 1;
}
