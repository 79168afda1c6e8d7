//! A job's lists, the numbers 2 to 13, 22 and 23, and the job that they say where there is none.
use super::space::{d, Point};
use std::collections::{BTreeMap, BTreeSet};

pub type Four = [usize; 4];
pub type Triangle = [usize; 3];

/// The lists as they come; point numbers may be any.
#[derive(Clone, Debug, Default, PartialEq)]
pub struct Lists {
    pub points: Vec<i32>,
    pub triangles: Vec<usize>,
    pub kept: Vec<usize>,
    pub inner: Vec<usize>,
    pub table: Vec<i32>,
}

/// A job without a fault.
pub struct Job {
    pub points: Vec<Point>,
    pub triangles: BTreeSet<Triangle>,
    pub kept: Vec<[usize; 2]>,
    pub inner: Vec<Triangle>,
    pub quality: BTreeMap<Four, i32>,
}

/// All fours of so many points, in lexicographic order.
pub fn fours(count: usize) -> Vec<Four> {
    let mut all = Vec::new();
    for a in 0..count {
        for b in a + 1..count {
            for c in b + 1..count {
                all.extend((c + 1..count).map(|d| [a, b, c, d]));
            }
        }
    }
    all
}

pub fn points_in(coordinates: &[i32]) -> Vec<Point> {
    coordinates.chunks_exact(3).map(|p| [p[0] as i64, p[1] as i64, p[2] as i64]).collect()
}

/// Written from its smallest number; turning a triangle changes nothing.
pub fn turned([a, b, c]: Triangle) -> Triangle {
    *[[a, b, c], [b, c, a], [c, a, b]].iter().min().unwrap()
}

fn triangles_in(numbers: &[usize]) -> Vec<Triangle> {
    numbers.chunks_exact(3).map(|t| [t[0], t[1], t[2]]).collect()
}

fn absent_or_repeated(numbers: &[usize], count: usize) -> bool {
    let different: BTreeSet<&usize> = numbers.iter().collect();
    different.len() < numbers.len() || numbers.iter().any(|p| *p >= count)
}

pub fn far(coordinates: &[i32]) -> bool {
    coordinates.iter().any(|x| !(-50_000..=50_000).contains(x))
}

pub fn same_place(coordinates: &[i32]) -> bool {
    let places: BTreeSet<&[i32]> = coordinates.chunks_exact(3).collect();
    places.len() < coordinates.len() / 3
}

fn same_three(triangles: &[Triangle]) -> bool {
    let mut seen = BTreeSet::new();
    triangles.iter().any(|t| {
        let mut three = *t;
        three.sort();
        !seen.insert(three)
    })
}

/// Whether some directed edge stands more or less often than its reverse.
fn unbalanced(triangles: &[Triangle]) -> bool {
    let mut times: BTreeMap<(usize, usize), i32> = BTreeMap::new();
    for [a, b, c] in triangles {
        for (from, to) in [(*a, *b), (*b, *c), (*c, *a)] {
            *times.entry((from, to)).or_default() += 1;
            *times.entry((to, from)).or_default() -= 1;
        }
    }
    times.values().any(|difference| *difference != 0)
}

fn solid_unmeasured(points: &[Point], table: &[i32]) -> bool {
    fours(points.len()).iter().zip(table).any(|(f, entry)| *entry == -1 && d(f.map(|p| points[p])) != 0)
}

/// The number whose place comes first of those that apply (22 and 23 stand between 10 and 11), or the job. 2 and 5 do not apply to the empty job.
pub fn check(lists: &Lists) -> Result<Job, u32> {
    let Lists { points, triangles, kept, inner, table } = lists;
    let (count, threes, edges) = (points.len() / 3, triangles.len() / 3, kept.len() / 2);
    let refuse = |number: u32, applies: bool| if applies { Err(number) } else { Ok(()) };
    let empty = *lists == Lists::default();
    refuse(2, !empty && (points.len() % 3 != 0 || !(4..=16).contains(&count)))?;
    refuse(3, far(points))?;
    refuse(4, same_place(points))?;
    refuse(5, !empty && (triangles.len() % 3 != 0 || !(4..=560).contains(&threes)))?;
    refuse(6, triangles.chunks(3).any(|t| absent_or_repeated(t, count)))?;
    refuse(7, same_three(&triangles_in(triangles)))?;
    refuse(8, unbalanced(&triangles_in(triangles)))?;
    refuse(9, kept.len() % 2 != 0 || edges > 120)?;
    refuse(10, kept.chunks(2).any(|e| absent_or_repeated(e, count)))?;
    refuse(22, inner.len() % 3 != 0 || inner.len() / 3 > 560)?;
    refuse(23, inner.chunks(3).any(|t| absent_or_repeated(t, count)))?;
    refuse(11, table.len() != fours(count).len())?;
    refuse(12, table.iter().any(|entry| !(-1..=1_000_000).contains(entry)))?;
    refuse(13, solid_unmeasured(&points_in(points), table))?;
    Ok(Job {
        points: points_in(points),
        triangles: triangles_in(triangles).into_iter().map(turned).collect(),
        kept: kept.chunks(2).map(|e| [e[0], e[1]]).collect(),
        inner: triangles_in(inner).into_iter().map(turned).collect(),
        quality: fours(count).into_iter().zip(table.iter().copied()).collect(),
    })
}
