//! The rule of trials (document 02, a limit on trials) as the paper words it. Nothing is laid out beforehand: every test is made anew at every corner.
use super::job::{Four, Job, Triangle};
use super::laws::{faces, reverse};
use super::search::{better, Best};

/// The rule followed under a limit: how many trials were made, whether there was one more, and the best filling found.
pub struct Run<'a> {
    job: &'a Job,
    limit: u32,
    pub trials: u32,
    pub spent: bool,
    pub best: Best,
}

impl Run<'_> {
    /// The outward faces of the set fours: those that have an owner.
    fn owned(&self, set: &[Four]) -> Vec<Triangle> {
        set.iter().flat_map(|f| faces(&self.job.points, *f)).collect()
    }

    /// Of the boundary triangles without an owner, and the reverses without an owner of the set fours' other faces, the lowest.
    fn lowest_open(&self, set: &[Four]) -> Option<Triangle> {
        let owned = self.owned(set);
        let others = owned.iter().filter(|f| !self.job.triangles.contains(*f)).map(|f| reverse(*f));
        self.job.triangles.iter().copied().chain(others).filter(|f| !owned.contains(f)).min()
    }

    /// Whether the four may be set at the open face.
    fn is_trial(&self, set: &[Four], open: Triangle, four: Four) -> bool {
        let job = self.job;
        if !job.law_2(four) || !job.law_3(four) {
            return false;
        }
        let (out, owned) = (faces(&job.points, four), self.owned(set));
        out.contains(&open)
            && set.iter().all(|g| job.law_5(four.min(*g), four.max(*g)))
            && !out.iter().any(|f| owned.contains(f))
            && !out.iter().any(|f| job.triangles.contains(&reverse(*f)))
            && self.best.as_ref().is_none_or(|(worst, _)| job.quality[&four] >= *worst)
    }

    /// No face is open: a filling, if it keeps the laws.
    fn closed(&mut self, set: &[Four]) {
        let mut list = set.to_vec();
        list.sort();
        if self.job.lowest_broken(&list).is_none() {
            self.best = better(self.best.take(), self.job.worst(&list), list);
        }
    }

    fn follow(&mut self, set: &mut Vec<Four>) {
        let Some(open) = self.lowest_open(set) else {
            return self.closed(set);
        };
        for corner in (0..self.job.points.len()).filter(|p| !open.contains(p)) {
            let mut four = [open[0], open[1], open[2], corner];
            four.sort();
            if !self.is_trial(set, open, four) {
                continue;
            }
            if self.trials == self.limit {
                self.spent = true;
            } else {
                self.trials += 1;
                set.push(four);
                self.follow(set);
                set.pop();
            }
            if self.spent {
                return;
            }
        }
    }
}

pub fn follow(job: &Job, limit: u32) -> Run<'_> {
    let mut run = Run { job, limit, trials: 0, spent: false, best: None };
    run.follow(&mut Vec::new());
    run
}
