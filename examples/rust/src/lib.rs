//! The functions of include/slew.h over slices, which say what each is given and answers.

/// The least size of the buffer that takes an answer's text, in bytes.
pub const ANSWER: usize = 16384;

/// How many numbers the workspace needs for rows of `controls` controls; `residuals` is 28, or 79 where the pointing weight is above 0.
pub const fn workspace(controls: usize, residuals: usize) -> usize {
    let n = 1 + 16 * controls;
    n * (n + residuals + 6) + 4 * residuals
}

/// A problem in numbers: counts, actuators, body, and whether there is a slew limit.
pub struct Problem {
    pub counts: [usize; 11],
    pub actuators: [f64; 100],
    pub body: [f64; 37],
    pub limited: bool,
}

/// A path: its duration, the largest defect of its run, its decision, its 17 nodes of 22 numbers, and for each place of a row how many of its 16 controls were held
/// to their limit.
pub struct Path {
    pub duration: f64,
    pub max_defect: f64,
    pub decision: [f64; 193],
    pub nodes: [f64; 374],
    pub held: [usize; 12],
}

/// A refusal's number and place.
#[derive(Debug)]
pub struct Refusal {
    pub number: usize,
    pub place: usize,
}

mod c {
    unsafe extern "C" {
        pub fn slew_plan(text: *const u8, text_count: usize, workspace: *mut f64, workspace_count: usize, out: *mut u8, out_count: usize) -> usize;
        pub fn slew_sample(
            text: *const u8,
            text_count: usize,
            workspace: *mut f64,
            workspace_count: usize,
            requested: usize,
            alpha: f64,
            index: usize,
            out: *mut f64,
            out_count: usize,
        ) -> u64;
        pub fn slew_plan_numbers(
            counts: &[usize; 11],
            actuators: &[f64; 100],
            body: &[f64; 37],
            limited: bool,
            workspace: *mut f64,
            workspace_count: usize,
            told: &mut [usize; 5],
            duration: &mut f64,
            max_defect: &mut f64,
            decision: &mut [f64; 193],
            nodes: &mut [f64; 374],
            held: &mut [usize; 12],
        ) -> usize;
        pub safe fn slew_problem_profile(
            counts: &[usize; 11],
            actuators: &[f64; 100],
            body: &[f64; 37],
            limited: bool,
            profile: &mut [f64; 22],
            place: &mut usize,
        ) -> usize;
        pub safe fn slew_sample_count(duration: f64, requested: usize, alpha: f64, count: &mut usize) -> usize;
        pub safe fn slew_sample_path(
            inertia: &[f64; 9],
            tolerance: f64,
            duration: f64,
            nodes: &[f64; 374],
            requested: usize,
            alpha: f64,
            index: usize,
            sample: &mut [f64; 14],
            place: &mut usize,
        ) -> usize;
    }
}

fn answered<T>(number: usize, place: usize, answer: T) -> Result<T, Refusal> {
    if number == 0 { Ok(answer) } else { Err(Refusal { number, place }) }
}

/// The answer of a problem's text, written into `out`.
pub fn plan<'a>(text: &[u8], workspace: &mut [f64], out: &'a mut [u8]) -> &'a [u8] {
    let bytes = unsafe { c::slew_plan(text.as_ptr(), text.len(), workspace.as_mut_ptr(), workspace.len(), out.as_mut_ptr(), out.len()) };
    &out[..bytes]
}

/// Dense sample number `index`, of at least `requested`, of the path of a problem's text: time, attitude, rate, torque, body momentum.
pub fn sample_text(text: &[u8], workspace: &mut [f64], requested: usize, index: usize) -> Result<[f64; 14], Refusal> {
    let mut out = [0.0; 14];
    let (lent, sample) = ((workspace.as_mut_ptr(), workspace.len()), (out.as_mut_ptr(), out.len()));
    let number = unsafe { c::slew_sample(text.as_ptr(), text.len(), lent.0, lent.1, requested, 0.0, index, sample.0, sample.1) };
    answered(number as usize, out[0] as usize, out)
}

/// The path of a problem in numbers.
pub fn plan_numbers(p: &Problem, workspace: &mut [f64]) -> Result<Path, Refusal> {
    let (mut told, mut path) = ([0; 5], Path { duration: 0.0, max_defect: 0.0, decision: [0.0; 193], nodes: [0.0; 374], held: [0; 12] });
    let number = unsafe {
        c::slew_plan_numbers(
            &p.counts,
            &p.actuators,
            &p.body,
            p.limited,
            workspace.as_mut_ptr(),
            workspace.len(),
            &mut told,
            &mut path.duration,
            &mut path.max_defect,
            &mut path.decision,
            &mut path.nodes,
            &mut path.held,
        )
    };
    answered(number, told[0], path)
}

/// The acceleration of a problem's profile, with which dense samples are asked for.
pub fn acceleration(p: &Problem) -> Result<f64, Refusal> {
    let (mut profile, mut place) = ([0.0; 22], 0);
    let number = c::slew_problem_profile(&p.counts, &p.actuators, &p.body, p.limited, &mut profile, &mut place);
    answered(number, place, profile[1])
}

/// How many dense samples a path has.
pub fn sample_count(path: &Path, requested: usize, alpha: f64) -> Result<usize, Refusal> {
    let mut count = 0;
    let number = c::slew_sample_count(path.duration, requested, alpha, &mut count);
    answered(number, 0, count)
}

/// A sample's numbers as one line.
pub fn line(sample: [f64; 14]) -> String {
    sample.map(|x| format!("{x:.9}")).join(",")
}

/// Dense sample number `index` of a path: time, attitude, rate, torque, body momentum.
pub fn sample(p: &Problem, path: &Path, requested: usize, alpha: f64, index: usize) -> Result<[f64; 14], Refusal> {
    let mut inertia = [0.0; 9];
    inertia.copy_from_slice(&p.body[8..17]);
    let (mut sample, mut place) = ([0.0; 14], 0);
    let number = c::slew_sample_path(&inertia, p.body[27], path.duration, &path.nodes, requested, alpha, index, &mut sample, &mut place);
    answered(number, place, sample)
}
