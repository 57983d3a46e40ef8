//! Plans the slew of examples/quarter-turn.toml, declared in numbers, and prints its dense samples as CSV; on standard error how many of the 16 controls about
//! each axis were held to their limit.
use slew_examples::{Problem, Refusal, acceleration, line, plan_numbers, sample, sample_count, workspace};

/// No wheels, no thrusters, no pyramid: three body torques.
const PROBLEM: Problem = Problem {
    counts: [0; 11],
    actuators: [0.0; 100],
    body: [
        1.0, 0.0, 0.0, 0.0, // q0
        0.7071067811865476, 0.0, 0.0, 0.7071067811865475, // qf: a quarter turn about z
        10.0, 0.0, 0.0, 0.0, 12.0, 0.0, 0.0, 0.0, 8.0, // inertia
        0.5, 0.5, 0.5, // torque limits
        0.0, // slew limit: none
        1.0, 0.0, 0.0, 0.0, 0.0, 0.0, // weights: time alone
        9.5367431640625e-07, 9.5367431640625e-07, // norm and tie tolerance, 2^-20
        0.0, 0.0, 0.0, 0.0, 0.0, 0.0, 0.0, 0.0, // start momenta: there are no wheels
    ],
    limited: false,
};

fn main() -> Result<(), Refusal> {
    let path = plan_numbers(&PROBLEM, &mut vec![0.0; workspace(3, 28)])?;
    let alpha = acceleration(&PROBLEM)?;
    let count = sample_count(&path, 17, alpha)?;

    eprintln!("held to the limit: {}, {}, {} of 16", path.held[0], path.held[1], path.held[2]);
    println!("t,qw,qx,qy,qz,wx,wy,wz,tx,ty,tz,hx,hy,hz");
    for index in 0..count {
        println!("{}", line(sample(&PROBLEM, &path, 17, alpha, index)?));
    }
    Ok(())
}
