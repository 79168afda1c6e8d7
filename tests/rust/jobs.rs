//! Random jobs: sound ones, made from tetrahedra that are set one by one or from the hull of points; damaged ones, made from these.
use crate::random::Random;
use crate::reference::job::{fours, points_in, turned, Four, Lists, Triangle};
use crate::reference::laws::{corners, faces, reverse};
use crate::reference::measure::entry;
use crate::reference::space::{apart, d, Point};
use cottontuff::Job;
use std::collections::BTreeSet;

/// A job's lists, and a list of fours that is likely to fill it.
#[derive(Clone, Debug, Default)]
pub struct Made {
    pub points: Vec<i32>,
    pub triangles: Vec<u8>,
    pub kept: Vec<u8>,
    pub inner: Vec<u8>,
    pub table: Vec<i32>,
    pub filling: Vec<Four>,
}

fn numbers(bytes: &[u8]) -> Vec<usize> {
    bytes.iter().map(|b| usize::from(*b)).collect()
}

impl Made {
    pub fn lists(&self) -> Lists {
        Lists {
            points: self.points.clone(),
            triangles: numbers(&self.triangles),
            kept: numbers(&self.kept),
            inner: numbers(&self.inner),
            table: self.table.clone(),
        }
    }

    pub fn job(&self) -> Job<'_> {
        let Made { points, triangles, kept, inner, table, .. } = self;
        Job { points, triangles, kept, inner, table }
    }

    pub fn told(&self) -> String {
        format!("{:?}", self.job())
    }

    /// The text of the job; an entry of −1 has no line.
    pub fn text(&self) -> Vec<u8> {
        let mut text = String::new();
        let mut line = |letter: &str, fields: &[String]| text += &format!("{letter},{}\n", fields.join(","));
        let written = |n: &[u8]| n.iter().map(u8::to_string).collect::<Vec<_>>();
        self.points.chunks(3).for_each(|p| line("P", &p.iter().map(i32::to_string).collect::<Vec<_>>()));
        self.triangles.chunks(3).for_each(|t| line("T", &written(t)));
        self.kept.chunks(2).for_each(|e| line("E", &written(e)));
        self.inner.chunks(3).for_each(|t| line("K", &written(t)));
        for (four, entry) in fours((self.points.len() / 3).min(17)).iter().zip(&self.table).filter(|(_, e)| **e != -1) {
            line("Q", &[&four.map(|p| p.to_string())[..], &[entry.to_string()]].concat());
        }
        text.into_bytes()
    }
}

/// So many different places: on a small grid, on two planes of it, or far out. A grid that is full gets wider.
fn places(random: &mut Random, count: usize) -> Vec<i32> {
    let most = random.any(&[1, 2, 2, 3, 4, 6, 40, 10_000, 50_000]);
    let least = if random.one_in(2) { -most } else { 0 };
    let height = if random.one_in(4) { 1 } else { most };
    let mut places: BTreeSet<[i32; 3]> = BTreeSet::new();
    let mut list = Vec::new();
    let mut tries = 0;
    while list.len() < 3 * count {
        tries += 1;
        let wider = if tries > 50 { 3 } else { 0 };
        let mut place = [0; 3].map(|_| random.within(least, (most + wider).min(50_000)));
        place[2] = random.within(0, (height + wider).min(50_000));
        if places.insert(place) {
            list.extend(place);
        }
    }
    list
}

fn unmatched(points: &[Point], list: &[Four]) -> Vec<Triangle> {
    let all: BTreeSet<Triangle> = list.iter().flat_map(|f| faces(points, *f)).collect();
    all.iter().copied().filter(|f| !all.contains(&reverse(*f))).collect()
}

/// Fours set one by one, mostly on an unmatched face of those before; `overlaps` lets them overlap.
fn glued(random: &mut Random, points: &[Point], wanted: usize, overlaps: bool) -> Vec<Four> {
    let solid: Vec<Four> = fours(points.len()).into_iter().filter(|f| d(f.map(|p| points[p])) != 0).collect();
    let mut chosen: Vec<Four> = Vec::new();
    let mut taken: BTreeSet<Triangle> = BTreeSet::new();
    for _ in 0..12 * wanted {
        if solid.is_empty() || chosen.len() == wanted {
            break;
        }
        let four = random.any(&solid);
        let of_four = faces(points, four);
        let touches = of_four.iter().any(|f| taken.contains(&reverse(*f)));
        let beside = touches || chosen.is_empty() || random.one_in(12);
        let free = || chosen.iter().all(|g| apart(corners(points, *g), corners(points, four)));
        if beside && !of_four.iter().any(|f| taken.contains(f)) && (overlaps || free()) {
            chosen.push(four);
            taken.extend(of_four);
        }
    }
    chosen.sort();
    chosen
}

/// The triangles that have all other points strictly on their inner side.
fn hull(points: &[Point]) -> Vec<Triangle> {
    let count = points.len();
    let mut hull = Vec::new();
    for a in 0..count {
        for (b, c) in (a + 1..count).flat_map(|b| (a + 1..count).map(move |c| (b, c))) {
            let inner = |x: usize| [a, b, c].contains(&x) || d([a, b, c, x].map(|p| points[p])) < 0;
            if b != c && (0..count).all(inner) {
                hull.push([a, b, c]);
            }
        }
    }
    hull
}

/// Entries: all alike, few values with many ties, any, or measured; some barred; a flat four has −1 or anything.
pub fn table(random: &mut Random, points: &[i32]) -> Vec<i32> {
    let kind = random.below(5);
    let barred = if random.one_in(2) { usize::MAX } else { 2 + random.below(12) };
    let mut entry_of = |f: &Four| {
        let coordinates: Vec<i32> = f.iter().flat_map(|p| points[3 * p..3 * p + 3].to_vec()).collect();
        let measured = entry(&coordinates);
        match kind {
            _ if measured == -1 => random.any(&[-1, -1, 0, 1, 1_000_000]),
            _ if random.one_in(barred) => 0,
            0 => 1,
            1 => random.within(1, 2),
            2 => random.within(1, 4) * 250_000,
            3 => random.within(1, 1_000_000),
            _ => measured,
        }
    };
    fours(points.len() / 3).iter().map(&mut entry_of).collect()
}

fn kept(random: &mut Random, count: usize, filling: &[Four]) -> Vec<u8> {
    let mut kept = Vec::new();
    for _ in 0..random.any(&[0, 0, 0, 1, 2, 5]) {
        let two = match filling {
            [_, ..] if !random.one_in(4) => {
                let four = random.any(filling);
                let at = random.below(4);
                [four[at], four[(at + 1 + random.below(3)) % 4]]
            }
            _ => {
                let at = random.below(count);
                [at, (at + 1 + random.below(count - 1)) % count]
            }
        };
        kept.extend(two.map(|p| p as u8));
    }
    kept
}

/// Inner triangles, each in either direction: faces of the filling mostly, boundary triangles, any three points.
fn inner(random: &mut Random, count: usize, triangles: &[Triangle], filling: &[Four]) -> Vec<u8> {
    let mut inner = Vec::new();
    for _ in 0..random.any(&[0, 0, 0, 0, 1, 1, 2, 5]) {
        let mut three = match (random.below(8), filling, triangles) {
            (0, _, [_, ..]) => random.any(triangles),
            (1..=6, [_, ..], _) => {
                let [a, b, c, d] = random.any(filling);
                random.any(&[[a, b, c], [a, b, d], [a, c, d], [b, c, d]])
            }
            _ => {
                let [a, b, c, _] = random.any(&fours(count));
                [a, b, c]
            }
        };
        if random.one_in(2) {
            three.reverse();
        }
        inner.push(three);
    }
    bytes(random, &inner)
}

/// Leaves out the points that no four meets, and numbers the rest anew.
fn without_unused(points: Vec<i32>, filling: Vec<Four>) -> (Vec<i32>, Vec<Four>) {
    let used: Vec<usize> = filling.iter().flatten().copied().collect::<BTreeSet<_>>().into_iter().collect();
    let place = |p: usize| used.iter().position(|q| *q == p).unwrap();
    let left = used.iter().flat_map(|p| points[3 * p..3 * p + 3].to_vec()).collect();
    (left, filling.into_iter().map(|f| f.map(place)).collect())
}

/// Triangles as bytes, each turned by chance.
fn bytes(random: &mut Random, triangles: &[Triangle]) -> Vec<u8> {
    let mut bytes = Vec::new();
    for t in triangles {
        let mut three = t.map(|p| p as u8);
        three.rotate_left(random.below(3));
        bytes.extend(three);
    }
    bytes
}

/// A tetrahedron with one on each of its faces. The boundary is that of the five and the inner one's as well: turned inwards it walls off a hole,
/// which the four around it fill; turned outwards the four are on its outer side, and no list is lawful.
fn walled(random: &mut Random) -> Made {
    let mut points = vec![0, 0, 0, 8, 0, 0, 0, 8, 0, 0, 0, 8, 2, 2, -6, 2, -6, 2, -6, 2, 2, 6, 6, 6];
    points.iter_mut().for_each(|x| *x += random.within(-1, 1));
    let around = [[0, 1, 2, 4], [0, 1, 3, 5], [0, 2, 3, 6], [1, 2, 3, 7]];
    let inner = [0, 1, 2, 3];
    let places = points_in(&points);
    let mut triangles = unmatched(&places, &[&around[..], &[inner]].concat());
    let hole = random.one_in(2);
    triangles.extend(faces(&places, inner).map(|f| if hole { reverse(f) } else { f }));
    let mut filling = around.to_vec();
    if !hole {
        filling.push(inner);
        filling.sort();
    }
    let (triangles, table) = (bytes(random, &triangles), table(random, &points));
    Made { points, triangles, table, filling, ..Made::default() }
}

/// A job of at most so many points that is not refused before 13, but where chance wills it.
pub fn sound(random: &mut Random, count: usize) -> Made {
    if random.one_in(30) {
        return walled(random);
    }
    let mut points = places(random, count);
    let wanted = 1 + random.below(count + count / 2);
    let overlaps = random.one_in(6);
    let mut filling = glued(random, &points_in(&points), wanted, overlaps);
    if !filling.is_empty() && !random.one_in(4) {
        (points, filling) = without_unused(points, filling);
    }
    let mut triangles = unmatched(&points_in(&points), &filling);
    if random.one_in(3) {
        let around = hull(&points_in(&points));
        triangles = if around.len() < 4 { triangles } else { around };
    }
    if random.one_in(40) {
        triangles = triangles.into_iter().map(reverse).collect();
    }
    let count = points.len() / 3;
    let (kept, inner) = (kept(random, count, &filling), inner(random, count, &triangles, &filling));
    let (triangles, table) = (bytes(random, &triangles), table(random, &points));
    Made { points, triangles, kept, inner, table, filling }
}

/// Coordinates and entries at and beyond the limits.
const EDGES: [i32; 15] =
    [50_000, 50_001, -50_000, -50_001, 10_001, -1, 0, 1, -2, 1_000_000, 1_000_001, i32::MIN, i32::MAX, i32::MIN + 1, 65_536];

/// One fault, or a change that is none, in one of the lists.
fn damage_list<T: Clone>(random: &mut Random, list: &mut Vec<T>, any: impl Fn(&mut Random) -> T) {
    let at = random.below(list.len().max(1));
    match random.below(7) {
        0 => list.truncate(list.len().saturating_sub(1 + random.below(4))),
        1 => list.extend([any(random), any(random), any(random)]),
        2 => list.push(any(random)),
        3 if !list.is_empty() => list[at] = any(random),
        4 if !list.is_empty() => list.swap(0, at),
        5 if !list.is_empty() => drop(list.remove(at)),
        6 if random.one_in(3) => list.clear(),
        _ => {}
    }
}

/// A fault of points: one in the place of another, one too many, one coordinate at a limit.
fn damage_points(random: &mut Random, made: &mut Made) {
    let count = made.points.len() / 3;
    if count < 2 {
        return;
    }
    let (one, other) = (3 * random.below(count), 3 * random.below(count));
    match random.below(3) {
        0 => made.points.copy_within(one..one + 3, other),
        1 => made.points[one + random.below(3)] = random.any(&EDGES),
        _ => damage_list(random, &mut made.points, |r| r.within(-3, 3)),
    }
}

/// A fault of triangles: reversed, repeated, left out, a corner changed.
fn damage_triangles(random: &mut Random, made: &mut Made) {
    let count = made.triangles.len() / 3;
    if count == 0 {
        return;
    }
    let at = 3 * random.below(count);
    let mut three = made.triangles[at..at + 3].to_vec();
    match random.below(6) {
        0 => made.triangles.swap(at, at + 1),
        1 => made.triangles.extend(three),
        2 => {
            three.swap(0, 1);
            made.triangles.extend(three)
        }
        3 => drop(made.triangles.drain(at..at + 3)),
        4 => made.triangles[at + random.below(3)] = random.any(&[0, 1, 2, 3, 4, 5, 15, 16, 255]),
        _ => damage_list(random, &mut made.triangles, |r| r.below(8) as u8),
    }
}

/// Lists longer than any that is accepted, with what they had at their start.
fn lengthen(random: &mut Random, made: &mut Made) {
    let long = random.any(&[3 * 17, 240, 241, 242, 3 * 560, 3 * 561, 1821, 7281, 60_000]);
    match random.below(5) {
        0 => made.points.extend((0..long as i32).map(|i| i % 9_973)),
        1 => made.triangles.extend((0..long).map(|i| i as u8 % 16)),
        2 => made.kept.extend((0..long).map(|i| (i % 4) as u8)),
        3 => made.inner.extend((0..long).map(|i| (i % 3) as u8)),
        _ => made.table.extend((0..long).map(|_| 1)),
    }
}

/// One to three changes, most of them faults.
pub fn damaged(random: &mut Random, mut made: Made) -> Made {
    for _ in 0..1 + random.below(3) {
        match random.below(14) {
            0..=2 => damage_points(random, &mut made),
            3..=5 => damage_triangles(random, &mut made),
            6 => made.kept.extend([random.below(9) as u8, random.below(9) as u8]),
            7 => damage_list(random, &mut made.kept, |r| r.any(&[0, 1, 2, 3, 16, 255])),
            8 => damage_list(random, &mut made.table, |r| r.any(&EDGES)),
            9 if !made.table.is_empty() => {
                let at = random.below(made.table.len());
                made.table[at] = random.any(&EDGES);
            }
            10 if random.one_in(2) => lengthen(random, &mut made),
            11 => damage_list(random, &mut made.inner, |r| r.any(&[0, 1, 2, 3, 16, 255])),
            12 => made.inner.extend([0; 3].map(|_| random.below(9) as u8)),
            _ => made.table.iter_mut().take(1).for_each(|entry| *entry = -1),
        }
    }
    made
}

/// A job of 16 points with as many triangles as chance finds whose directed edges balance: sums of tetrahedra's faces.
pub fn many_triangles(random: &mut Random) -> Made {
    let points = places(random, 16);
    let all = fours(16);
    let mut sides: BTreeSet<Triangle> = BTreeSet::new();
    for _ in 0..6_000 {
        let [a, b, c, d] = random.any(&all);
        let mut of_four = [[a, c, b], [a, b, d], [a, d, c], [b, c, d]].map(turned);
        if random.one_in(2) {
            of_four = of_four.map(reverse);
        }
        let cancels = of_four.iter().filter(|f| sides.contains(&reverse(**f))).count();
        if cancels <= 1 && !of_four.iter().any(|f| sides.contains(f)) {
            for f in of_four {
                if !sides.remove(&reverse(f)) {
                    sides.insert(f);
                }
            }
        }
    }
    let triangles = bytes(random, &sides.into_iter().collect::<Vec<_>>());
    let table = table(random, &points);
    Made { points, triangles, table, ..Made::default() }
}
