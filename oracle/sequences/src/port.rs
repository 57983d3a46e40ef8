//! The C interface of previews and starts, and of the plans that the model asks for.

/// Momenta as a caller holds them: a count of wheels and eight numbers.
#[derive(Clone, Copy, Debug)]
pub struct Momenta {
    pub wheels: usize,
    pub at: [f64; 8],
}

/// A problem in numbers, with a caller's seed or none.
#[derive(Clone)]
pub struct Problem {
    pub counts: [usize; 11],
    pub actuators: [f64; 100],
    pub body: [f64; 37],
    pub seed: Option<(f64, Vec<f64>)>,
}

/// What a plan or a preview fills, and the number that it answers.
#[derive(Clone)]
pub struct Planned {
    pub number: usize,
    pub told: [usize; 5],
    pub duration: f64,
    pub max_defect: f64,
    pub z: [f64; 193],
    pub nodes: [[f64; 22]; 17],
    pub held: [usize; 12],
}

impl Planned {
    fn blank() -> Self {
        Planned { number: 77, told: [77; 5], duration: 1.0, max_defect: 1.0, z: [1.0; 193], nodes: [[1.0; 22]; 17], held: [77; 12] }
    }
}

#[derive(Clone)]
pub struct Preview {
    pub began: Momenta,
    pub planned: Planned,
}

type Fill<'a> = (&'a mut [usize; 5], &'a mut f64, &'a mut f64, &'a mut [f64; 193], &'a mut [[f64; 22]; 17], &'a mut [usize; 12]);

mod entries {
    unsafe extern "C" {
        pub fn slew_plan_numbers(
            c: &[usize; 11], v: &[f64; 100], b: &[f64; 37], limited: bool, ws: *mut f64, ws_len: usize, told: &mut [usize; 5],
            duration: &mut f64, max_defect: &mut f64, z: &mut [f64; 193], nodes: &mut [[f64; 22]; 17],
            held: &mut [usize; 12],
        ) -> usize;
        pub fn slew_plan_from_numbers(
            c: &[usize; 11], v: &[f64; 100], b: &[f64; 37], limited: bool, seed_duration: f64, rates: *const f64, rates_len: usize,
            torques: *const f64, torques_len: usize, ws: *mut f64, ws_len: usize, told: &mut [usize; 5], duration: &mut f64,
            max_defect: &mut f64, z: &mut [f64; 193], nodes: &mut [[f64; 22]; 17],
            held: &mut [usize; 12],
        ) -> usize;
        pub fn slew_preview_numbers(
            c: &[usize; 11], v: &[f64; 100], b: &[f64; 37], limited: bool, wheels: usize, on_record: &[f64; 8], ws: *mut f64, ws_len: usize,
            told: &mut [usize; 5], duration: &mut f64, max_defect: &mut f64, z: &mut [f64; 193], nodes: &mut [[f64; 22]; 17],
            held: &mut [usize; 12], began_wheels: &mut usize, began: &mut [f64; 8],
        ) -> usize;
        pub fn slew_preview_from_numbers(
            c: &[usize; 11], v: &[f64; 100], b: &[f64; 37], limited: bool, wheels: usize, on_record: &[f64; 8], seed_duration: f64,
            rates: *const f64, rates_len: usize, torques: *const f64, torques_len: usize, ws: *mut f64, ws_len: usize,
            told: &mut [usize; 5], duration: &mut f64, max_defect: &mut f64, z: &mut [f64; 193], nodes: &mut [[f64; 22]; 17],
            held: &mut [usize; 12], began_wheels: &mut usize, began: &mut [f64; 8],
        ) -> usize;
        pub safe fn slew_start(
            wheels: &mut usize, on_record: &mut [f64; 8], refusal: usize, began_wheels: usize, began: &[f64; 8], path_wheels: usize,
            nodes: &[[f64; 22]; 17], place: &mut usize,
        ) -> usize;
    }
}

fn fill(p: &mut Planned) -> Fill<'_> {
    (&mut p.told, &mut p.duration, &mut p.max_defect, &mut p.z, &mut p.nodes, &mut p.held)
}

/// The planner alone, on the problem with its own momenta.
pub fn plan(p: &Problem, ws: &mut [f64]) -> Planned {
    let mut out = Planned::blank();
    let (t, d, m, z, n, h) = fill(&mut out);
    // every slice with its own length; nothing that is lent for writing overlaps
    let number = match &p.seed {
        None => unsafe { entries::slew_plan_numbers(&p.counts, &p.actuators, &p.body, false, ws.as_mut_ptr(), ws.len(), t, d, m, z, n, h) },
        Some((duration, torques)) => unsafe {
            let (r, u) = (torques.as_ptr(), torques.len());
            entries::slew_plan_from_numbers(&p.counts, &p.actuators, &p.body, false, *duration, r, u, r, u, ws.as_mut_ptr(), ws.len(), t, d, m, z, n, h)
        },
    };
    out.number = number;
    out
}

pub fn preview(record: &Momenta, p: &Problem, ws: &mut [f64]) -> Preview {
    let mut out = Preview { began: Momenta { wheels: 77, at: [77.0; 8] }, planned: Planned::blank() };
    let Preview { began: Momenta { wheels, at }, planned } = &mut out;
    let (t, d, m, z, n, h) = fill(planned);
    let number = match &p.seed {
        None => unsafe {
            let lent = (ws.as_mut_ptr(), ws.len());
            entries::slew_preview_numbers(&p.counts, &p.actuators, &p.body, false, record.wheels, &record.at, lent.0, lent.1, t, d, m, z, n, h, wheels, at)
        },
        Some((duration, torques)) => unsafe {
            let (r, u, lent) = (torques.as_ptr(), torques.len(), (ws.as_mut_ptr(), ws.len()));
            entries::slew_preview_from_numbers(
                &p.counts, &p.actuators, &p.body, false, record.wheels, &record.at, *duration, r, u, r, u, lent.0, lent.1, t, d, m, z, n, h, wheels, at,
            )
        },
    };
    planned.number = number;
    out
}

/// The number and the place; the record is replaced where the number is 0.
pub fn start(record: &mut Momenta, v: &Preview) -> (usize, usize) {
    let mut place = 77;
    let number = entries::slew_start(&mut record.wheels, &mut record.at, v.planned.number, v.began.wheels, &v.began.at, v.planned.told[3], &v.planned.nodes, &mut place);
    (number, place)
}
