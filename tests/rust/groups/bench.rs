//! The bench: random sessions, with meshes good and damaged, and values that were changed between the operations. Number and every field are compared.
use super::{refusals, Group, Part};
use crate::meshes::{damaged, mesh, pair};
use crate::random::Random;
use crate::reference::bench::{Bench, Cavity};
use crate::reference::job::{check, Four};
use crate::reference::search::{best_by_faces, Best};
use crate::tally::{refusal, Tally};
use cottontuff::c;
use std::collections::BTreeSet;

pub const GROUP: Group = Group { name: "bench", run, wanted };

fn wanted(_: &Part) -> (Vec<String>, u64) {
    let numbers = [2, 3, 4, 17, 18, 19, 20, 31, 32, 33, 34, 35, 36, 37, 38];
    (refusals(numbers, &["loaded", "opened", "grown", "replaced", "closed", "over 16 points"]), 5)
}

const STEPS: u64 = 1_000;

#[derive(Clone, Debug)]
pub enum Operation {
    Load(Vec<i32>, Vec<u8>),
    Open(u32),
    Grow,
    Replace,
    Close,
}

fn marked(marks: &[u8]) -> BTreeSet<usize> {
    (0..marks.len()).filter(|i| marks[*i] != 0).collect()
}

/// The value that the arrays stand for; counts above the arrays are those of a mesh that load refuses.
pub fn shown(raw: &c::Bench) -> Bench {
    let (points, tets) = (raw.point_count as usize, raw.tet_count as usize);
    if points > 64 || tets > 256 {
        return Bench { count: raw.count, ..Bench::default() };
    }
    let cavity = Cavity { tets: marked(&raw.in_cavity), points: marked(&raw.in_points) };
    Bench {
        points: raw.points[..3 * points].to_vec(),
        tets: raw.tets[..4 * tets].chunks(4).map(|t| [t[0], t[1], t[2], t[3]].map(usize::from)).collect(),
        qualities: raw.qualities[..tets].to_vec(),
        cavity: (raw.open != 0).then_some(cavity),
        count: raw.count,
    }
}

fn laid<T: Copy, const N: usize>(list: &[T], behind: T) -> [T; N] {
    std::array::from_fn(|i| list.get(i).copied().unwrap_or(behind))
}

/// The arrays of a value: zeros behind the lists, marks of 1.
pub fn arrays(bench: &Bench) -> c::Bench {
    let tets: Vec<u8> = bench.tets.iter().flatten().map(|p| *p as u8).collect();
    let cavity = bench.cavity.as_ref();
    let mark = |on: bool| u8::from(on);
    c::Bench {
        points: laid(&bench.points, 0),
        tets: laid(&tets, 0),
        qualities: laid(&bench.qualities, 0),
        in_cavity: std::array::from_fn(|i| mark(cavity.is_some_and(|c| c.tets.contains(&i)))),
        in_points: std::array::from_fn(|i| mark(cavity.is_some_and(|c| c.points.contains(&i)))),
        point_count: bench.points.len() as u32 / 3,
        tet_count: bench.tets.len() as u32,
        count: bench.count,
        open: mark(cavity.is_some()),
    }
}

/// The best filling of the open cavity: by listing, or, where that takes too long, as the library's search gives it, which other groups compare.
fn best(tally: &mut Tally, bench: &Bench) -> Best {
    let lists = bench.cavity_lists().ok()?;
    let job = check(&lists).ok()?;
    if let Some(best) = best_by_faces(&job, STEPS) {
        tally.count("cavity listed");
        return best;
    }
    tally.count("cavity searched");
    let triangles: Vec<u8> = lists.triangles.iter().map(|p| *p as u8).collect();
    let job = cottontuff::Job { points: &lists.points, triangles: &triangles, kept: &[], inner: &[], table: &lists.table };
    let filling = cottontuff::search(&job).ok()?;
    let fours: Vec<Four> = filling.fours.iter().map(|f| f.map(usize::from)).collect();
    Some((filling.worst as i32, fours))
}

/// The number, and every field afterwards. Load lays all out anew, replace all but the points, the others the cavity alone.
fn expected(tally: &mut Tally, raw: &c::Bench, operation: &Operation) -> (u32, c::Bench) {
    let mut bench = shown(raw);
    let done = match operation {
        Operation::Load(points, tets) => bench.load(points, tets),
        Operation::Open(tet) => bench.open_at(*tet as usize),
        Operation::Grow => bench.grow(),
        Operation::Replace => {
            let best = best(tally, &bench);
            bench.replace(&best)
        }
        Operation::Close => bench.close(),
    };
    if let Err(number) = done {
        return (number, *raw);
    }
    let new = arrays(&bench);
    let after = match operation {
        Operation::Load(..) => new,
        Operation::Replace => c::Bench { points: raw.points, ..new },
        _ => c::Bench { in_cavity: new.in_cavity, in_points: new.in_points, open: new.open, ..*raw },
    };
    (0, after)
}

fn answered(raw: &c::Bench, operation: &Operation) -> (u32, c::Bench) {
    // SAFETY: values go over and come back; the two lists are slices, which the function only reads.
    let answer = unsafe {
        match operation {
            Operation::Load(points, tets) => {
                c::cottontuff_bench_load(*raw, points.as_ptr(), points.len(), tets.as_ptr(), tets.len())
            }
            Operation::Open(tet) => c::cottontuff_bench_open(*raw, *tet),
            Operation::Grow => c::cottontuff_bench_grow(*raw),
            Operation::Replace => c::cottontuff_bench_replace(*raw),
            Operation::Close => c::cottontuff_bench_close(*raw),
        }
    };
    (answer.number, answer.bench)
}

/// The same through the safe methods, which leave the value as it was where they refuse.
fn safely(raw: &c::Bench, operation: &Operation) -> (u32, c::Bench) {
    let mut bench = *raw;
    let done = match operation {
        Operation::Load(points, tets) => bench.load(points, tets),
        Operation::Open(tet) => bench.open_at(*tet),
        Operation::Grow => bench.grow(),
        Operation::Replace => bench.replace(),
        Operation::Close => bench.close(),
    };
    (done.map_or_else(|number| number.0, |()| 0), bench)
}

/// One operation by both; the value afterwards is the library's.
pub fn step(tally: &mut Tally, raw: &c::Bench, operation: &Operation) -> (u32, c::Bench) {
    let expected = expected(tally, raw, operation);
    let got = answered(raw, operation);
    let kind = match operation {
        _ if expected.0 != 0 => refusal(expected.0),
        Operation::Load(..) => "loaded".to_string(),
        Operation::Open(_) => "opened".to_string(),
        Operation::Grow => "grown".to_string(),
        Operation::Replace => "replaced".to_string(),
        Operation::Close => "closed".to_string(),
    };
    let told = || format!("{operation:?} on {:?}", shown(raw));
    tally.compare(kind, &(expected, expected), &(got, safely(raw, operation)), told);
    got
}

fn load(random: &mut Random) -> Operation {
    let mesh = mesh(random);
    let mesh = if random.one_in(3) { damaged(random, mesh) } else { mesh };
    Operation::Load(mesh.points, mesh.tets)
}

/// What suits the value, mostly.
fn operation(random: &mut Random, raw: &c::Bench) -> Operation {
    let any_tet = random.below(raw.tet_count.max(1) as usize) as u32;
    match random.below(12) {
        _ if raw.tet_count == 0 && !random.one_in(8) => load(random),
        0 => load(random),
        1 => Operation::Close,
        2 => Operation::Open(random.any(&[raw.tet_count, raw.tet_count.wrapping_sub(1), 256, u32::MAX])),
        3..=5 if raw.open == 0 => Operation::Open(any_tet),
        3..=5 => Operation::Replace,
        _ if raw.open == 0 && !random.one_in(4) => Operation::Open(any_tet),
        _ => Operation::Grow,
    }
}

/// Something else in one field, or behind the counts, where it shows nothing.
fn changed(random: &mut Random, mut raw: c::Bench) -> c::Bench {
    let (points, tets) = (raw.point_count.clamp(1, 64) as usize, raw.tet_count.clamp(1, 256) as usize);
    let byte = random.any(&[0, 1, 2, 255]);
    match random.below(12) {
        0 => raw.point_count = random.any(&[0, 3, raw.point_count.wrapping_add(1), 64, 65, u32::MAX]),
        1 => raw.tet_count = random.any(&[0, raw.tet_count.wrapping_sub(1), 256, 257, u32::MAX]),
        2 => raw.open = byte,
        3 => raw.in_cavity[random.below(256)] = byte,
        4 => raw.in_cavity[random.below(tets)] = byte,
        5 => raw.in_points[random.below(points)] = byte,
        6 => raw.in_points[random.below(64)] = byte,
        7 => raw.qualities[random.below(tets)] ^= random.any(&[1, 1 << 31]),
        8 => raw.points[random.below(3 * points)] = random.any(&[0, 10_001, 50_000, 50_001, i32::MIN]),
        9 => raw.tets[random.below(4 * tets)] = random.any(&[0, 1, 63, 64, 255]),
        10 => raw.count = random.any(&[7, u32::MAX - 1, u32::MAX]),
        _ => {
            raw.points[3 * points..].fill(77);
            raw.tets[4 * tets..].fill(255);
            raw.qualities[tets..].fill(9);
        }
    }
    raw
}

/// Every mark another byte that is not 0: the same cavity.
fn remarked(random: &mut Random, mut raw: c::Bench) -> c::Bench {
    let other = random.any(&[2, 128, 255]);
    raw.in_cavity.iter_mut().chain(&mut raw.in_points).filter(|mark| **mark != 0).for_each(|mark| *mark = other);
    raw.open = raw.open.wrapping_mul(other);
    raw
}

/// An open cavity that some tetrahedra of the mesh span: good, but where it has over 16 points.
fn spanned(random: &mut Random, raw: &c::Bench) -> c::Bench {
    let mut bench = shown(raw);
    let wanted = random.any(&[4, 9, 15, 16, 17, 18]);
    let mut points = BTreeSet::new();
    for _ in 0..if bench.tets.is_empty() { 0 } else { 60 } {
        let joined: BTreeSet<usize> = points.iter().copied().chain(random.any(&bench.tets)).collect();
        points = if joined.len() <= wanted { joined } else { points };
    }
    let within = (0..bench.tets.len()).filter(|i| bench.tets[*i].iter().all(|p| points.contains(p)));
    bench.cavity = Some(Cavity { tets: within.collect(), points });
    let new = arrays(&bench);
    c::Bench { in_cavity: new.in_cavity, in_points: new.in_points, open: 1, ..*raw }
}

fn session(tally: &mut Tally, random: &mut Random) {
    // SAFETY: the function takes nothing and returns a value.
    let mut raw = unsafe { c::cottontuff_bench_fresh() };
    tally.compare("fresh".to_string(), &arrays(&Bench::default()), &raw, || "fresh".to_string());
    for _ in 0..40 {
        let handed = match random.below(16) {
            0 | 1 => changed(random, raw),
            2 => remarked(random, raw),
            3 => spanned(random, &raw),
            _ => raw,
        };
        if handed.open != 0 && marked(&handed.in_points).len() > 16 {
            tally.count("over 16 points");
        }
        let operation = operation(random, &handed);
        let (number, after) = step(tally, &handed, &operation);
        // A value that was spoiled is mostly put aside.
        raw = if number == 0 || random.one_in(4) { after } else { raw };
    }
}

/// Two tetrahedra that three replace, where the rest of the mesh lets them.
fn pair_session(tally: &mut Tally, random: &mut Random) {
    let mesh = pair(random);
    let mut raw = arrays(&Bench { count: random.any(&[0, 5, u32::MAX - 1, u32::MAX]), ..Bench::default() });
    let open = Operation::Open(random.below(2) as u32);
    let load = Operation::Load(mesh.points, mesh.tets);
    for operation in [load, open, Operation::Grow, Operation::Replace, Operation::Grow, Operation::Replace] {
        raw = step(tally, &raw, &operation).1;
    }
}

fn run(part: &Part) -> Tally {
    let mut tally = Tally::default();
    for seed in part.seeds(600) {
        let mut random = Random::new(7_000_000 + seed);
        session(&mut tally, &mut random);
        pair_session(&mut tally, &mut random);
    }
    tally
}
