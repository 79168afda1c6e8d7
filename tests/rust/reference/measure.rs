//! Measuring: D and S exactly, then the shape number in doubles, in document 01's order.
use super::job::far;

#[derive(Clone, Copy, Debug, PartialEq)]
pub enum Measurement {
    Refused(u32),
    Flat { s: f64 },
    Shape { d: f64, s: f64, shape: f64, millionths: u32 },
}

type Vector = [i128; 3];

fn minus(p: Vector, q: Vector) -> Vector {
    [p[0] - q[0], p[1] - q[1], p[2] - q[2]]
}

fn determinant([u, v, w]: [Vector; 3]) -> i128 {
    u[0] * (v[1] * w[2] - v[2] * w[1]) - u[1] * (v[0] * w[2] - v[2] * w[0]) + u[2] * (v[0] * w[1] - v[1] * w[0])
}

/// The least is 1, so that a thin solid element is not barred.
fn millionths(shape: f64) -> u32 {
    (shape * 1_000_000.0).floor().clamp(1.0, 1_000_000.0) as u32
}

pub fn measure(coordinates: &[i32]) -> Measurement {
    if far(coordinates) {
        return Measurement::Refused(3);
    }
    if coordinates.len() != 12 {
        return Measurement::Refused(16);
    }
    let corners: Vec<Vector> = coordinates.chunks(3).map(|p| [p[0] as i128, p[1] as i128, p[2] as i128]).collect();
    let mut s = 0;
    for i in 0..4 {
        for k in 0..i {
            s += minus(corners[i], corners[k]).iter().map(|x| x * x).sum::<i128>();
        }
    }
    let d = determinant([1, 2, 3].map(|i| minus(corners[i], corners[0]))).abs();
    if d == 0 {
        return Measurement::Flat { s: s as f64 };
    }
    let (d, s) = (d as f64, s as f64);
    let shape = 432.0 * (d * d) / ((s * s) * s);
    Measurement::Shape { d, s, shape, millionths: millionths(shape) }
}

/// A job's entry for a four: −1 where it is flat.
pub fn entry(coordinates: &[i32]) -> i32 {
    match measure(coordinates) {
        Measurement::Shape { millionths, .. } => millionths as i32,
        _ => -1,
    }
}
