//! Makes the crate's root from the published files, which stay as they are: geom.rs is named by its path, actuators.rs is copied with its one gyroscopic line
//! (`GYROSCOPIC`) under a test of law.rs, scvx.rs is copied with the start of a run (`STARTING`) taken from starts.rs and one line added that lets a module of ours see its
//! private functions, and lib.rs gives the lines that `PARTS` lists. A second copy of scvx.rs, the module `counted`, has the lines of `COUNTED` added, which count and compute nothing. With the feature
//! `faults` every file is a copy in which each fault of mutations.rs has a switch; the ordinary comparison is built without it.
use mutations::FAULTS;
use std::cmp::Reverse;
use std::path::{Path, PathBuf};
use std::{env, fs};

#[path = "src/mutations.rs"]
#[allow(dead_code)]
mod mutations;

/// First and last line, counted from 1, with the text that each must begin with.
const PARTS: [(usize, &str, usize, &str); 6] = [
    (11, "use actuators::", 11, "use actuators::"),
    (13, "use geom::", 14, "use libm::"),
    (23, "use thiserror::Error;", 23, "use thiserror::Error;"),
    (35, "#[derive(Debug, Error)]", 41, "}"),
    (308, "#[derive(Clone, Copy)]", 384, "}"),
    (839, "fn bang_coast_bang(", 936, "}"),
];

/// A text that stands once in scvx.rs, and the line added before it.
const COUNTED: [(&str, &str); 21] = [
    ("        problem\n            .actuators\n            .project_controls(&mut row", "crate::tally::allocated(&row);"),
    ("        u_rows.push(row);", "crate::tally::seed_row(&row);"),
    ("        let r = residuals(problem, &z)?;\n        let mag", "crate::tally::round();"),
    ("        if mag <= DEFECT_TOL {", "crate::tally::length(mag);"),
    ("        let mut a = vec![vec![0.0; n_z]; n_z];", "crate::tally::phase(crate::tally::NORMAL);"),
    ("        if solve_dense(&mut a, &mut g).is_err() {", "crate::tally::phase(crate::tally::ELIMINATION);"),
    ("            lambda = (lambda * 8.0)", "crate::tally::singular();"),
    ("        let mut trial = apply_step", "crate::tally::phase(crate::tally::OTHER);"),
    ("        project_decision(problem, &mut trial);", "crate::tally::moved(&trial.u);"),
    ("        let trial_norm = ", "crate::tally::projected(&trial.u);"),
    ("        if trial_norm < best {", "crate::tally::trial(trial_norm, best);"),
    ("            z = trial;", "crate::tally::accepted();"),
    ("            lambda = (lambda * 4.0)", "crate::tally::rejected();"),
    ("    let path = reconstruct(problem, &z)?;\n    let term", "crate::tally::decision(z.duration, &z.u);"),
    ("    let term = log_so3(", "crate::tally::outside_run();"),
    ("        if torque_excess(*torque", "crate::tally::node(index);"),
    ("    let n = z.u.len() + 1;", "crate::tally::run();"),
    ("        momenta[i] = h;", "crate::tally::step(i);"),
    ("    Ok(CollocationPath {", "crate::tally::phase(crate::tally::OTHER);"),
    ("    let mut r = Vec::new();", "crate::tally::outside_run(); crate::tally::phase(crate::tally::RESIDUALS);"),
    ("    Ok(r)\n", "crate::tally::phase(crate::tally::OTHER);"),
];

/// The line of actuators.rs that subtracts the cross product of body rate and stored momentum: run under the published law alone.
const GYROSCOPIC: &str = "            tau = add3(tau, scale3(cross(omega, h), -1.0));\n";

/// The two lines of scvx.rs with which a run begins, and what stands there instead: the problem's start momenta, and the body momentum that they make.
const STARTING: (&str, &str) = (
    "    let mut h = [0.0; 3];\n    let mut h_wheels = vec![0.0; problem.actuators.wheels.len()];\n",
    "    let mut h_wheels = crate::starts::of(problem.actuators.wheels.len());\n    let mut h = problem.actuators.body_momentum(&h_wheels);",
);

/// A part of a published text and what is written there: a line before it, or a fault's switch about it.
struct Edit {
    start: usize,
    end: usize,
    fault: Option<usize>,
    text: &'static str,
}

/// Where a text stands in the file, which must be one place.
fn place(file: &str, published: &str, text: &str) -> usize {
    assert!(published.matches(text).count() == 1, "{file} has not one place with {text}");
    published.find(text).expect("a text that stands there")
}

fn counting(published: &str) -> Vec<Edit> {
    let edit = |&(before, text)| {
        let start = place("scvx.rs", published, before);
        Edit { start, end: start, fault: None, text }
    };
    COUNTED.iter().map(edit).collect()
}

/// The test about the gyroscopic line.
fn by_law(published: &str) -> Vec<Edit> {
    let start = place("actuators.rs", published, GYROSCOPIC);
    let line = |at, text| Edit { start: at, end: at, fault: None, text };
    vec![line(start, "if crate::law::published() {"), line(start + GYROSCOPIC.len(), "}")]
}

/// The start of a run, in both copies of scvx.rs.
fn starting(published: &str) -> Edit {
    let (old, text) = STARTING;
    let start = place("scvx.rs", published, old);
    Edit { start, end: start + old.len(), fault: None, text }
}

/// The switches of a file's faults; none without the feature.
fn switches(file: &str, published: &str) -> Vec<Edit> {
    let wanted = FAULTS.iter().enumerate().filter(|(_, fault)| fault.file == file && env::var_os("CARGO_FEATURE_FAULTS").is_some());
    let edit = |(number, at): (usize, &mutations::Place)| {
        let start = place(file, published, &format!("{}{}", at.before, at.old)) + at.before.len();
        Edit { start, end: start + at.old.len(), fault: Some(number), text: at.new }
    };
    wanted.flat_map(|(number, fault)| fault.places.iter().map(move |at| (number, at))).map(edit).collect()
}

/// The text with its edits: lines first, then the longest switch, which has the shorter ones in it.
fn edited(published: &str, mut edits: Vec<Edit>) -> String {
    edits.sort_by_key(|e| (e.start, e.start != e.end, Reverse(e.end)));
    written(published, 0, published.len(), &edits)
}

/// From `at` to `end`. An edit's old text is written by the edits inside of it.
fn written(published: &str, mut at: usize, end: usize, mut edits: &[Edit]) -> String {
    let mut out = String::new();
    while let Some((edit, rest)) = edits.split_first() {
        let inside = rest.iter().take_while(|e| e.start < edit.end).count();
        assert!(rest[..inside].iter().all(|e| e.end <= edit.end), "two faults overlap: {}", edit.text);
        out.push_str(&published[at..edit.start]);
        let old = written(published, edit.start, edit.end, &rest[..inside]);
        out.push_str(&match edit.fault {
            None => format!("{}\n", edit.text),
            Some(number) if old.is_empty() => format!("crate::faults::switch!({number} {{{}}} {{}});\n", edit.text),
            Some(number) => format!("crate::faults::switch!({number} {{{}}} {{{old}}})", edit.text),
        });
        (at, edits) = (edit.end, &rest[inside..]);
    }
    out.push_str(&published[at..end]);
    out
}

/// The lines of lib.rs that are ported.
fn profile_part(published: &str) -> String {
    let lines: Vec<&str> = published.lines().collect();
    let mut parts = String::new();
    for (first, head, last, tail) in PARTS {
        assert!(lines[first - 1].starts_with(head) && lines[last - 1].starts_with(tail), "lib.rs has other lines at {first} and {last}");
        parts.push_str(&lines[first - 1..last].join("\n"));
        parts.push('\n');
    }
    parts
}

fn main() {
    let here = PathBuf::from(env::var("CARGO_MANIFEST_DIR").expect("cargo sets it"));
    let out = PathBuf::from(env::var("OUT_DIR").expect("cargo sets it"));
    let vendor = here.join("../vendor");
    println!("cargo:rerun-if-changed={}", vendor.display());
    println!("cargo:rerun-if-changed={}", here.join("src/mutations.rs").display());
    let named = |path: &Path| path.display().to_string();
    let read = |file: &str| fs::read_to_string(vendor.join(file)).unwrap_or_else(|err| panic!("vendor/{file}: {err}"));
    let copy = |file: &str, text: String| {
        let path = out.join(file);
        fs::write(&path, text).unwrap_or_else(|err| panic!("a copy, {file}: {err}"));
        path
    };
    let plain = |file: &str| {
        let (published, faulty) = (read(file), env::var_os("CARGO_FEATURE_FAULTS").is_some());
        if faulty { copy(file, edited(&published, switches(file, &published))) } else { vendor.join(file) }
    };

    let torques = read("actuators.rs");
    let published = read("scvx.rs");
    let door = format!("\n#[path = \"{}\"]\npub mod probe;\n", named(&here.join("src/probe_scvx.rs")));
    let search = |counts: Vec<Edit>| edited(&published, switches("scvx.rs", &published).into_iter().chain([starting(&published)]).chain(counts).collect()) + &door;
    let mut root = String::new();
    let modules = [
        ("geom", plain("geom.rs")),
        ("actuators", copy("actuators.rs", edited(&torques, switches("actuators.rs", &torques).into_iter().chain(by_law(&torques)).collect()))),
        ("scvx", copy("scvx.rs", search(Vec::new()))),
        ("counted", copy("counted.rs", search(counting(&published)))),
    ];
    for (name, path) in modules {
        root.push_str(&format!("#[path = \"{}\"]\npub mod {name};\n", named(&path)));
    }
    root.push_str("use quatopsy_schema::PI_TIE_ABS_DOT;\n");
    let parts = profile_part(&read("lib.rs"));
    root.push_str(&edited(&parts, switches("lib.rs", &parts)));
    fs::write(out.join("root.rs"), root).expect("the root");
}
