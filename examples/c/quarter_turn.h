/* The slew of examples/quarter-turn.toml, declared in numbers, as samples.c and board.c plan it. */
#ifndef QUARTER_TURN_H
#define QUARTER_TURN_H

#include "slew.h"

/* No wheels, no thrusters, no pyramid: three body torques. */
static const size_t counts[11];
static const double actuators[100];
static const double body[37] = {
    1, 0, 0, 0,                                     /* q0 */
    0.7071067811865476, 0, 0, 0.7071067811865475, /* qf: a quarter turn about z */
    10, 0, 0, 0, 12, 0, 0, 0, 8,                    /* inertia */
    0.5, 0.5, 0.5,                                  /* torque limits */
    0,                                              /* slew limit: none */
    1, 0, 0, 0, 0, 0,                               /* weights: time alone */
    9.5367431640625e-07, 9.5367431640625e-07,       /* norm and tie tolerance, 2^-20 */
    0, 0, 0, 0, 0, 0, 0, 0,                         /* start momenta: there are no wheels */
};

#endif
