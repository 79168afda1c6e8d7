//! Random meshes for the bench: cut boxes with moved points, tetrahedra that share no outward face but may overlap, two on a common face among such.
use crate::random::Random;
use crate::reference::job::{fours, points_in, Four, Triangle};
use crate::reference::laws::faces;
use crate::reference::space::{d, Point};
use std::collections::BTreeSet;

pub struct Mesh {
    pub points: Vec<i32>,
    pub tets: Vec<u8>,
}

/// The six ways through the three axes: each cuts one tetrahedron out of a unit cube.
const WAYS: [[usize; 3]; 6] = [[0, 1, 2], [0, 2, 1], [1, 0, 2], [1, 2, 0], [2, 0, 1], [2, 1, 0]];

fn solid(points: &[Point], f: Four) -> bool {
    d(f.map(|p| points[p])) != 0
}

/// A box of cubes, six tetrahedra each, its points moved a little.
fn cut_box(random: &mut Random) -> (Vec<i32>, Vec<Four>) {
    let size = [0; 3].map(|_| 1 + random.below(3));
    let number = |at: [usize; 3]| (at[0] * (size[1] + 1) + at[1]) * (size[2] + 1) + at[2];
    let moved = random.any(&[0, 1, 3, 5]);
    let (mut points, mut tets) = (Vec::new(), Vec::new());
    let steps = |end: usize| 0..=end;
    for at in steps(size[0]).flat_map(|x| steps(size[1]).flat_map(move |y| steps(size[2]).map(move |z| [x, y, z]))) {
        points.extend(at.map(|x| 10 * x as i32 + random.within(-moved, moved)));
        if (0..3).any(|axis| at[axis] == size[axis]) {
            continue;
        }
        for way in WAYS {
            let mut corner = at;
            let mut tet = [number(at); 4];
            for (k, axis) in way.into_iter().enumerate() {
                corner[axis] += 1;
                tet[k + 1] = number(corner);
            }
            tets.push(tet);
        }
    }
    (points, tets)
}

/// Adds random fours, as many as wanted, none of which has an outward face that is there already.
fn heap(random: &mut Random, points: &[Point], tets: &mut Vec<Four>, wanted: usize) {
    let mut taken: BTreeSet<Triangle> = tets.iter().flat_map(|t| faces(points, *t)).collect();
    for _ in 0..20 * wanted {
        let mut four = [0; 4].map(|_| random.below(points.len()));
        four.sort();
        let different = four.windows(2).all(|two| two[0] < two[1]);
        if tets.len() >= wanted || !different || !solid(points, four) {
            continue;
        }
        let of_four = faces(points, four);
        if !of_four.iter().any(|f| taken.contains(f)) {
            taken.extend(of_four);
            tets.push(four);
        }
    }
}

fn scattered(random: &mut Random, count: usize, size: i32) -> Vec<i32> {
    let mut places: BTreeSet<[i32; 3]> = BTreeSet::new();
    while places.len() < count {
        places.insert([0; 3].map(|_| random.within(-size, size)));
    }
    places.into_iter().flatten().collect()
}

/// Two tetrahedra on a face, numbers 0 and 1, which three fill better, before a heap of others: one of these may have a face of the three, and there
/// may be no room for a third.
pub fn pair(random: &mut Random) -> Mesh {
    let mut points = vec![60, 0, 0, 0, 60, 0, 0, 0, 60, 5, 5, 5, 35, 35, 35];
    let more = random.any(&[1, 5, 30, 59]);
    points.extend(scattered(random, more, 9).iter().map(|x| x - 20));
    let mut tets = vec![[0, 1, 2, 3], [0, 1, 2, 4]];
    if random.one_in(3) {
        tets.push([random.below(3), 3, 4, 5]);
    }
    let wanted = random.any(&[2, 4, 12, 40, 254, 255, 256, 256]);
    heap(random, &points_in(&points), &mut tets, wanted);
    Mesh { tets: tets.iter().flatten().map(|p| *p as u8).collect(), points }
}

/// The same mesh with its tetrahedra in another order, and the corners of each too.
fn shuffled(random: &mut Random, tets: &[Four]) -> Vec<u8> {
    let mut tets = tets.to_vec();
    for i in (1..tets.len()).rev() {
        tets.swap(i, random.below(i + 1));
    }
    for tet in &mut tets {
        for i in 1..4 {
            tet.swap(i, random.below(i + 1));
        }
    }
    tets.iter().flatten().map(|p| *p as u8).collect()
}

/// A mesh that load takes, but where chance wills it.
pub fn mesh(random: &mut Random) -> Mesh {
    let (points, tets) = match random.below(4) {
        0 | 1 => cut_box(random),
        2 => {
            let count = 4 + random.below(61);
            let points = scattered(random, count, 30);
            let mut tets = Vec::new();
            let wanted = 1 + random.below(256);
            heap(random, &points_in(&points), &mut tets, wanted);
            (points, tets)
        }
        _ => {
            let count = 4 + random.below(4);
            let points = scattered(random, count, 3);
            let mut all = fours(count);
            all.retain(|f| solid(&points_in(&points), *f));
            all.truncate(1 + random.below(3));
            (points, all)
        }
    };
    Mesh { tets: shuffled(random, &tets), points }
}

/// One fault in a mesh, or none.
pub fn damaged(random: &mut Random, mut mesh: Mesh) -> Mesh {
    let (point, tet) = (random.below(mesh.points.len()), random.below(mesh.tets.len().max(1)));
    match random.below(9) {
        0 => mesh.points.truncate(random.any(&[0, 9, 11, 12, 13])),
        1 => mesh.points.extend((0..3 * random.any(&[1, 61, 1000])).map(|i| i % 9_000 + 200)),
        2 => mesh.points[point] = random.any(&[50_000, 50_001, -50_001, 10_001, i32::MIN, i32::MAX]),
        3 => mesh.points.copy_within(0..3, point / 3 * 3),
        4 => mesh.tets.truncate(random.any(&[0, 1, 3, 4, 5])),
        5 => mesh.tets.extend((0..4 * random.any(&[1, 257, 5000])).map(|i| i as u8)),
        6 if !mesh.tets.is_empty() => mesh.tets[tet] = random.any(&[0, 1, 2, 3, 64, 128, 255]),
        7 if mesh.tets.len() >= 4 => mesh.tets.extend_from_within(..4),
        _ => {}
    }
    mesh
}
