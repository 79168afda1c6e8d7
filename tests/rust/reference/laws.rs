//! The eight laws of a filling, each as documents 01 and 02 word it, and the judge.
use super::job::{turned, Four, Job, Triangle};
use super::space::{apart, d, inside, Point};
use std::collections::BTreeSet;

pub fn reverse([a, b, c]: Triangle) -> Triangle {
    turned([a, c, b])
}

/// A solid four in an order that makes D positive.
pub fn positive(points: &[Point], four: Four) -> Four {
    let [a, b, c, e] = four;
    if d(four.map(|p| points[p])) > 0 {
        four
    } else {
        [b, a, c, e]
    }
}

/// The outward faces of a solid four, each from its smallest number.
pub fn faces(points: &[Point], four: Four) -> [Triangle; 4] {
    let [a, b, c, d] = positive(points, four);
    [[a, c, b], [a, b, d], [a, d, c], [b, c, d]].map(turned)
}

pub fn corners(points: &[Point], four: Four) -> [Point; 4] {
    positive(points, four).map(|p| points[p])
}

impl Job {
    pub fn solid(&self, four: Four) -> bool {
        d(four.map(|p| self.points[p])) != 0
    }

    pub fn law_2(&self, four: Four) -> bool {
        self.solid(four) && self.quality[&four] > 0
    }

    pub fn law_3(&self, four: Four) -> bool {
        !self.points.iter().any(|p| inside(corners(&self.points, four), *p))
    }

    fn law_4(&self, list: &[Four]) -> bool {
        let all: Vec<Triangle> = list.iter().flat_map(|f| faces(&self.points, *f)).collect();
        let different: BTreeSet<Triangle> = all.iter().copied().collect();
        let boundary = |t: &Triangle| self.triangles.contains(t);
        all.len() == different.len()
            && self.triangles.iter().all(|t| different.contains(t))
            && all.iter().all(|f| boundary(f) || (different.contains(&reverse(*f)) && !boundary(&reverse(*f))))
    }

    pub fn law_5(&self, s: Four, t: Four) -> bool {
        apart(corners(&self.points, s), corners(&self.points, t))
    }

    fn every_two_apart(&self, list: &[Four]) -> bool {
        (0..list.len()).all(|i| (0..i).all(|k| self.law_5(list[k], list[i])))
    }

    fn law_6(&self, list: &[Four]) -> bool {
        (0..self.points.len()).all(|p| list.iter().any(|f| f.contains(&p)))
    }

    fn law_7(&self, list: &[Four]) -> bool {
        self.kept.iter().all(|[a, b]| list.iter().any(|f| f.contains(a) && f.contains(b)))
    }

    fn law_8(&self, list: &[Four]) -> bool {
        let all: BTreeSet<Triangle> = list.iter().flat_map(|f| faces(&self.points, *f)).collect();
        self.inner.iter().all(|t| all.contains(t) || all.contains(&reverse(*t)))
    }

    /// The lowest of laws 2 to 8 that a list breaks; law 1 is kept. Each is asked only where those before it are kept.
    pub fn lowest_broken(&self, list: &[Four]) -> Option<u32> {
        let laws: [&dyn Fn() -> bool; 7] = [
            &|| list.iter().all(|f| self.law_2(*f)),
            &|| list.iter().all(|f| self.law_3(*f)),
            &|| self.law_4(list),
            &|| self.every_two_apart(list),
            &|| self.law_6(list),
            &|| self.law_7(list),
            &|| self.law_8(list),
        ];
        laws.iter().position(|kept| !kept()).map(|at| at as u32 + 2)
    }

    /// The least table entry of a list's fours.
    pub fn worst(&self, list: &[Four]) -> i32 {
        list.iter().map(|f| self.quality[f]).min().unwrap_or(1_000_000)
    }

    /// The worst quality of a lawful list, or the lowest law broken.
    pub fn judge(&self, list: &[usize]) -> Result<i32, u32> {
        let fours: Vec<Four> = list.chunks_exact(4).map(|f| [f[0], f[1], f[2], f[3]]).collect();
        let rising = |f: &Four| f[0] < f[1] && f[1] < f[2] && f[2] < f[3];
        let law_1 = list.len() % 4 == 0
            && list.iter().all(|p| *p < self.points.len())
            && fours.iter().all(rising)
            && fours.windows(2).all(|two| two[0] < two[1]);
        if !law_1 {
            return Err(1);
        }
        self.lowest_broken(&fours).map_or(Ok(self.worst(&fours)), Err)
    }
}
