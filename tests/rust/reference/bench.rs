//! The bench over lists: what a value holds, and what each operation gives and leaves.
use super::job::{far, fours, points_in, same_place, Four, Lists, Triangle};
use super::laws::{faces, reverse};
use super::measure::{entry, measure, Measurement};
use super::search::Best;
use super::space::d;
use std::cmp::Reverse;
use std::collections::BTreeSet;

/// C and P.
#[derive(Clone, Debug, PartialEq)]
pub struct Cavity {
    pub tets: BTreeSet<usize>,
    pub points: BTreeSet<usize>,
}

#[derive(Clone, Debug, Default, PartialEq)]
pub struct Bench {
    pub points: Vec<i32>,
    pub tets: Vec<Four>,
    pub qualities: Vec<u32>,
    pub cavity: Option<Cavity>,
    pub count: u32,
}

/// What a value counts as.
enum Held<'a> {
    NoMesh,
    Mesh,
    Open(&'a Cavity),
}

fn tets_in(numbers: &[u8]) -> Vec<Four> {
    numbers.chunks_exact(4).map(|t| [t[0], t[1], t[2], t[3]].map(usize::from)).collect()
}

fn bad_tet(points: &[[i64; 3]], tet: Four) -> bool {
    let different: BTreeSet<usize> = tet.into_iter().collect();
    different.len() < 4 || tet.iter().any(|p| *p >= points.len()) || d(tet.map(|p| points[p])) == 0
}

fn face_twice(points: &[i32], tets: &[Four]) -> bool {
    let points = points_in(points);
    let all: Vec<Triangle> = tets.iter().flat_map(|t| faces(&points, *t)).collect();
    all.iter().collect::<BTreeSet<_>>().len() < all.len()
}

/// The lowest of 2, 3, 4, 17, 18, 19 that applies to a mesh.
fn mesh_fault(points: &[i32], tets: &[Four], whole: bool) -> Result<(), u32> {
    let refuse = |number: u32, applies: bool| if applies { Err(number) } else { Ok(()) };
    let places = points_in(points);
    refuse(2, points.len() % 3 != 0 || !(4..=64).contains(&(points.len() / 3)))?;
    refuse(3, far(points))?;
    refuse(4, same_place(points))?;
    refuse(17, !whole || !(1..=256).contains(&tets.len()))?;
    refuse(18, tets.iter().any(|t| bad_tet(&places, *t)))?;
    refuse(19, face_twice(points, tets))
}

fn coordinates(points: &[i32], numbers: &[usize]) -> Vec<i32> {
    numbers.iter().flat_map(|p| points[3 * p..3 * p + 3].to_vec()).collect()
}

fn quality(points: &[i32], tet: Four) -> u32 {
    match measure(&coordinates(points, &tet)) {
        Measurement::Shape { millionths, .. } => millionths,
        _ => 0,
    }
}

fn qualities(points: &[i32], tets: &[Four]) -> Vec<u32> {
    tets.iter().map(|t| quality(points, *t)).collect()
}

impl Bench {
    fn points_of(&self, tets: &BTreeSet<usize>) -> BTreeSet<usize> {
        tets.iter().filter_map(|i| self.tets.get(*i)).flatten().copied().collect()
    }

    fn tets_within(&self, points: &BTreeSet<usize>) -> BTreeSet<usize> {
        (0..self.tets.len()).filter(|i| self.tets[*i].iter().all(|p| points.contains(p))).collect()
    }

    fn cavity_fits(&self, cavity: &Cavity) -> bool {
        !cavity.tets.is_empty()
            && cavity.points.len() <= 16
            && cavity.points == self.points_of(&cavity.tets)
            && cavity.tets == self.tets_within(&cavity.points)
    }

    fn held(&self) -> Held<'_> {
        let mesh =
            mesh_fault(&self.points, &self.tets, true).is_ok() && self.qualities == qualities(&self.points, &self.tets);
        match &self.cavity {
            _ if !mesh => Held::NoMesh,
            None => Held::Mesh,
            Some(cavity) if self.cavity_fits(cavity) => Held::Open(cavity),
            Some(_) => Held::NoMesh,
        }
    }

    /// The open cavity, or 31 or 33.
    fn opened(&self) -> Result<Cavity, u32> {
        match self.held() {
            Held::NoMesh => Err(31),
            Held::Mesh => Err(33),
            Held::Open(cavity) => Ok(cavity.clone()),
        }
    }

    pub fn load(&mut self, points: &[i32], numbers: &[u8]) -> Result<(), u32> {
        if let Held::Open(_) = self.held() {
            return Err(32);
        }
        let tets = tets_in(numbers);
        mesh_fault(points, &tets, numbers.len() % 4 == 0)?;
        let qualities = qualities(points, &tets);
        *self = Bench { points: points.to_vec(), tets, qualities, cavity: None, count: self.count };
        Ok(())
    }

    pub fn open_at(&mut self, tet: usize) -> Result<(), u32> {
        match self.held() {
            Held::NoMesh => return Err(31),
            Held::Open(_) => return Err(32),
            Held::Mesh if tet >= self.tets.len() => return Err(20),
            Held::Mesh => {}
        }
        let tets = BTreeSet::from([tet]);
        self.cavity = Some(Cavity { points: self.points_of(&tets), tets });
        Ok(())
    }

    /// A: the tetrahedra outside C that share a face with one in C.
    fn around(&self, cavity: &Cavity) -> Vec<usize> {
        let common = |i: usize, k: usize| self.tets[i].iter().filter(|p| self.tets[k].contains(p)).count();
        let touches = |i: &usize| cavity.tets.iter().any(|k| common(*i, *k) == 3);
        (0..self.tets.len()).filter(|i| !cavity.tets.contains(i) && touches(i)).collect()
    }

    /// The corner outside P met by most of A; then with the lowest sum of qualities; then the lowest.
    fn joins(&self, cavity: &Cavity) -> Option<usize> {
        let around = self.around(cavity);
        let outside = around.iter().flat_map(|i| self.tets[*i]).filter(|p| !cavity.points.contains(p));
        outside.min_by_key(|p| {
            let met: Vec<&usize> = around.iter().filter(|i| self.tets[**i].contains(p)).collect();
            let sum: u64 = met.iter().map(|i| self.qualities[**i] as u64).sum();
            (Reverse(met.len()), sum, *p)
        })
    }

    pub fn grow(&mut self) -> Result<(), u32> {
        let cavity = self.opened()?;
        if cavity.points.len() >= 16 {
            return Err(34);
        }
        let joins = self.joins(&cavity).ok_or(35u32)?;
        let mut points = cavity.points;
        points.insert(joins);
        self.cavity = Some(Cavity { tets: self.tets_within(&points), points });
        Ok(())
    }

    pub fn close(&mut self) -> Result<(), u32> {
        self.opened()?;
        self.cavity = None;
        Ok(())
    }

    /// The job of the open cavity: P ascending, the unmatched faces of C, no kept edges, no inner triangles, every solid four measured.
    pub fn cavity_lists(&self) -> Result<Lists, u32> {
        let cavity = self.opened()?;
        let numbers: Vec<usize> = cavity.points.iter().copied().collect();
        let points = points_in(&self.points);
        let all: BTreeSet<Triangle> = cavity.tets.iter().flat_map(|i| faces(&points, self.tets[*i])).collect();
        let place = |p: &usize| numbers.iter().position(|q| q == p).unwrap();
        let boundary = all.iter().filter(|f| !all.contains(&reverse(**f)));
        let measured = |f: Four| entry(&coordinates(&self.points, &f.map(|i| numbers[i])));
        Ok(Lists {
            points: coordinates(&self.points, &numbers),
            triangles: boundary.flat_map(|f| f.iter().map(place).collect::<Vec<_>>()).collect(),
            kept: Vec::new(),
            inner: Vec::new(),
            table: fours(numbers.len()).into_iter().map(measured).collect(),
        })
    }

    /// Replaces the cavity by the best filling of its job, which the caller has searched for.
    pub fn replace(&mut self, best: &Best) -> Result<(), u32> {
        let cavity = self.opened()?;
        let worst_of_c = cavity.tets.iter().map(|i| self.qualities[*i] as i32).min().unwrap();
        let Some((_, filling)) = best.as_ref().filter(|(worst, _)| *worst > worst_of_c) else { return Err(36) };
        let numbers: Vec<usize> = cavity.points.iter().copied().collect();
        let rest = (0..self.tets.len()).filter(|i| !cavity.tets.contains(i)).map(|i| self.tets[i]);
        let tets: Vec<Four> = rest.chain(filling.iter().map(|f| f.map(|i| numbers[i]))).collect();
        if tets.len() > 256 {
            return Err(37);
        }
        if face_twice(&self.points, &tets) {
            return Err(38);
        }
        self.qualities = qualities(&self.points, &tets);
        self.tets = tets;
        self.cavity = None;
        self.count = self.count.saturating_add(1);
        Ok(())
    }
}
