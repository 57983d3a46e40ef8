//! The oracle's names that the published Rust uses. Keep-out cones stay behind: the list of them is always empty, so nothing here is reached.

#[derive(Clone, Copy, Debug)]
pub struct RefQuat {
    pub w: f64,
    pub x: f64,
    pub y: f64,
    pub z: f64,
}

#[derive(Clone, Copy, Debug)]
pub struct KeepOutCone {
    pub body_axis: [f64; 3],
    pub inertial_axis: [f64; 3],
    pub min_angle_rad: f64,
}

/// Never called: no problem here has a cone.
pub fn keep_out_violation(_q: RefQuat, _zone: KeepOutCone) -> Result<f64, ()> {
    Err(())
}
