//! The best filling by listing lawful ones: over all lists where the fours are few, else from open face to open face.
use super::job::{fours, Four, Job, Triangle};
use super::laws::{faces, reverse};
use std::collections::{BTreeMap, BTreeSet};

/// A filling and its worst quality.
pub type Best = Option<(i32, Vec<Four>)>;

/// The greater worst quality; among equals, the list that comes first.
pub(super) fn better(best: Best, worst: i32, list: Vec<Four>) -> Best {
    match best {
        Some((w, l)) if w > worst || (w == worst && l <= list) => Some((w, l)),
        _ => Some((worst, list)),
    }
}

/// By judging every list of fours in order: 2 to the count of fours.
pub fn best_of_all_lists(job: &Job) -> Best {
    let all = fours(job.points.len());
    let mut best = None;
    for subset in 0..1u32 << all.len() {
        let list: Vec<Four> = (0..all.len()).filter(|i| subset >> i & 1 == 1).map(|i| all[i]).collect();
        if job.lowest_broken(&list).is_none() {
            best = better(best, job.worst(&list), list);
        }
    }
    best
}

/// The search from open face to open face.
struct Walk<'a> {
    job: &'a Job,
    /// Fours that keep laws 2 and 3 and have no boundary triangle on their outer side, with their outward faces.
    candidates: Vec<(Four, [Triangle; 4])>,
    /// The candidates that have a face outward.
    owners: BTreeMap<Triangle, Vec<usize>>,
    /// Law 5 of two candidates, where it was asked before.
    apart: BTreeMap<(usize, usize), bool>,
    best: Best,
    steps_left: u64,
}

impl Walk<'_> {
    fn apart(&mut self, i: usize, k: usize) -> bool {
        let (four, other) = (self.candidates[i].0, self.candidates[k].0);
        *self.apart.entry((i, k)).or_insert_with(|| self.job.law_5(four, other))
    }

    /// A boundary triangle, or the reverse of another face, that no chosen four has; in a filling some four has it.
    fn open_face(&self, chosen: &[usize]) -> Option<Triangle> {
        let owned: BTreeSet<Triangle> = chosen.iter().flat_map(|i| self.candidates[*i].1).collect();
        let inner = owned.iter().filter(|f| !self.job.triangles.contains(*f)).map(|f| reverse(*f));
        self.job.triangles.iter().copied().chain(inner).find(|f| !owned.contains(f))
    }

    fn fits(&mut self, i: usize, chosen: &[usize]) -> bool {
        let of_i = self.candidates[i].1;
        chosen.iter().all(|k| !self.candidates[*k].1.iter().any(|f| of_i.contains(f)) && self.apart(i, *k))
    }

    fn consider(&mut self, chosen: &[usize]) {
        let mut list: Vec<Four> = chosen.iter().map(|i| self.candidates[*i].0).collect();
        list.sort();
        if self.job.lowest_broken(&list).is_none() {
            self.best = better(self.best.take(), self.job.worst(&list), list);
        }
    }

    /// Goes through all fillings that hold the chosen fours; false where the steps do not suffice.
    fn walk(&mut self, chosen: &mut Vec<usize>) -> bool {
        if self.steps_left == 0 {
            return false;
        }
        self.steps_left -= 1;
        let Some(open) = self.open_face(chosen) else {
            self.consider(chosen);
            return true;
        };
        let least = self.best.as_ref().map_or(1, |(worst, _)| *worst);
        for i in self.owners.get(&open).cloned().unwrap_or_default() {
            if self.job.quality[&self.candidates[i].0] >= least && self.fits(i, chosen) {
                chosen.push(i);
                let ended = self.walk(chosen);
                chosen.pop();
                if !ended {
                    return false;
                }
            }
        }
        true
    }
}

/// The best from face to face, in at most so many steps; none where they do not suffice.
pub fn best_by_faces(job: &Job, steps: u64) -> Option<Best> {
    let mut walk = walk_of(job, steps);
    walk.walk(&mut Vec::new()).then_some(walk.best)
}

/// The best of those that hold a four, in the same way: it is set before the first face is looked at.
pub fn best_with_by_faces(job: &Job, four: Four, steps: u64) -> Option<Best> {
    let mut walk = walk_of(job, steps);
    match walk.candidates.iter().position(|(f, _)| *f == four) {
        Some(i) => walk.walk(&mut vec![i]).then_some(walk.best),
        None => Some(None),
    }
}

fn walk_of(job: &Job, steps: u64) -> Walk<'_> {
    let sound = |f: &Four| job.law_2(*f) && job.law_3(*f);
    let candidates: Vec<(Four, [Triangle; 4])> = fours(job.points.len())
        .into_iter()
        .filter(sound)
        .map(|f| (f, faces(&job.points, f)))
        .filter(|(_, of_f)| !of_f.iter().any(|f| job.triangles.contains(&reverse(*f))))
        .collect();
    let mut owners: BTreeMap<Triangle, Vec<usize>> = BTreeMap::new();
    for (i, (_, of_i)) in candidates.iter().enumerate() {
        of_i.iter().for_each(|f| owners.entry(*f).or_default().push(i));
    }
    Walk { job, candidates, owners, apart: BTreeMap::new(), best: None, steps_left: steps }
}
