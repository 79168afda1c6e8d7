//! Why a four is not in the answer (document 02): the first reason that is true, each as the paper words it.
use super::job::{fours, Four, Job};
use super::laws::corners;
use super::search::{best_with_by_faces, Best};
use super::space::inside;

/// Every lawful filling with its worst quality, by judging every list of fours: 2 to the count of fours.
pub fn all_fillings(job: &Job) -> Vec<(i32, Vec<Four>)> {
    let all = fours(job.points.len());
    let list_of = |subset: u32| (0..all.len()).filter(|i| subset >> i & 1 == 1).map(|i| all[i]).collect::<Vec<Four>>();
    let lawful = |list: &Vec<Four>| job.lowest_broken(list).is_none();
    (0..1u32 << all.len()).map(list_of).filter(lawful).map(|list| (job.worst(&list), list)).collect()
}

/// Where the fillings that hold a four come from.
pub enum Fillings<'a> {
    /// All that there are.
    Listed(&'a [(i32, Vec<Four>)]),
    /// From face to face, in at most so many steps.
    ByFaces(u64),
}

impl Fillings<'_> {
    /// The best worst quality of those that hold the four; none where the steps do not suffice.
    fn best_with(&self, job: &Job, four: Four) -> Option<Option<i32>> {
        match self {
            Fillings::Listed(all) => {
                Some(all.iter().filter(|(_, list)| list.contains(&four)).map(|(worst, _)| *worst).max())
            }
            Fillings::ByFaces(steps) => best_with_by_faces(job, four, *steps).map(|best| best.map(|(worst, _)| worst)),
        }
    }
}

/// The numbers of a four that is there.
fn present(job: &Job, four: [u32; 4]) -> Option<Four> {
    let rising = four.windows(2).all(|two| two[0] < two[1]);
    (rising && (four[3] as usize) < job.points.len()).then(|| four.map(|p| p as usize))
}

/// Number, reason and value; none where the steps do not suffice.
pub fn explain(job: &Job, best: &Best, four: [u32; 4], fillings: &Fillings) -> Option<[u32; 3]> {
    let Some(four) = present(job, four) else { return Some([24, 0, 0]) };
    let Some((answer_worst, answer)) = best else { return Some([15, 0, 0]) };
    let because = |reason: u32, value: u32| Some([0, reason, value]);
    if answer.contains(&four) {
        return because(1, 0);
    }
    if !job.solid(four) {
        return because(2, 0);
    }
    if job.quality[&four] == 0 {
        return because(3, 0);
    }
    if let Some(point) = job.points.iter().position(|p| inside(corners(&job.points, four), *p)) {
        return because(4, point as u32);
    }
    match fillings.best_with(job, four)? {
        None => because(5, 0),
        Some(worst) if worst < *answer_worst => because(6, worst as u32),
        Some(_) => because(7, 0),
    }
}
