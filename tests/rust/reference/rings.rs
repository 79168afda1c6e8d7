//! Edge removal (document 02): the triangulations of a ring by Catalan's recursion, and of the rows that are lawful the best, the first among equals.
use super::job::{self, Four, Job, Lists};

/// A triangle by three positions of the ring, rising.
pub type Triple = [usize; 3];

/// The triangulations of the polygon from position `first` to `last`: the triangle on that side, then those of what is left of it on each hand.
fn split(first: usize, last: usize) -> Vec<Vec<Triple>> {
    if last - first < 2 {
        return vec![Vec::new()];
    }
    let mut rows = Vec::new();
    for tip in first + 1..last {
        for left in split(first, tip) {
            rows.extend(split(tip, last).iter().map(|right| [&[[first, tip, last]][..], &left, right].concat()));
        }
    }
    rows
}

/// The rows of a ring of so many points, triples and rows in the order of their numbers.
pub fn rows(size: usize) -> Vec<Vec<Triple>> {
    let mut rows = split(0, size - 1);
    rows.iter_mut().for_each(|row| row.sort());
    rows.sort();
    rows
}

/// Edge and ring as they come, with the points and the table of the job.
#[derive(Clone, Debug, Default)]
pub struct Ring {
    pub points: Vec<i32>,
    pub ends: [u32; 2],
    pub ring: Vec<u8>,
    pub table: Vec<i32>,
}

impl Ring {
    /// Ends and ring are all the points, each once.
    fn good(&self) -> bool {
        let mut all: Vec<u32> = self.ends.into_iter().chain(self.ring.iter().map(|p| u32::from(*p))).collect();
        all.sort();
        (3..=7).contains(&self.ring.len()) && all == (0..self.points.len() as u32 / 3).collect::<Vec<u32>>()
    }

    /// For each two neighbours r, s of the ring r, s, a and s, r, b.
    pub fn boundary(&self) -> Vec<usize> {
        let [a, b] = self.ends.map(|p| p as usize);
        let ring: Vec<usize> = self.ring.iter().map(|p| usize::from(*p)).collect();
        let next = ring.iter().cycle().skip(1);
        ring.iter().zip(next).flat_map(|(r, s)| [*r, *s, a, *s, *r, b]).collect()
    }

    pub fn lists(&self) -> Lists {
        let (points, table) = (self.points.clone(), self.table.clone());
        Lists { points, triangles: self.boundary(), table, ..Lists::default() }
    }

    /// Each triple of a row joined to both ends, in order.
    fn fours(&self, row: &[Triple]) -> Vec<Four> {
        let joined = |triple: &Triple, end: u32| {
            let [r, s, t] = triple.map(|i| usize::from(self.ring[i]));
            let mut four = [r, s, t, end as usize];
            four.sort();
            four
        };
        let mut fours: Vec<Four> = row.iter().flat_map(|triple| self.ends.map(|end| joined(triple, end))).collect();
        fours.sort();
        fours
    }

    /// The lists of the lawful rows with their worst qualities, row by row.
    fn lawful(&self, job: &Job) -> Vec<(i32, Vec<Four>)> {
        let lists = rows(self.ring.len()).into_iter().map(|row| self.fours(&row));
        lists.filter(|list| job.lowest_broken(list).is_none()).map(|list| (job.worst(&list), list)).collect()
    }
}

/// What is answered, and how many rows are as good.
pub struct Removed {
    pub worst: i32,
    pub list: Vec<Four>,
    pub tied: usize,
    /// A row that is as good has a list that comes before it.
    pub later: bool,
}

/// With a buffer of so many bytes.
pub fn remove_edge(ring: &Ring, room: usize) -> Result<Removed, u32> {
    if !ring.good() {
        return Err(25);
    }
    let job = job::check(&ring.lists())?;
    if room < 7280 {
        return Err(14);
    }
    let lawful = ring.lawful(&job);
    let worst = lawful.iter().map(|(worst, _)| *worst).max().ok_or(26u32)?;
    let best: Vec<&Vec<Four>> = lawful.iter().filter(|(w, _)| *w == worst).map(|(_, list)| list).collect();
    Ok(Removed { worst, list: best[0].clone(), tied: best.len(), later: best.iter().any(|list| *list < best[0]) })
}
