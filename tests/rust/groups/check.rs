//! The checker: sound and damaged jobs, lists far too long and empty.
use super::{refusals, Group, Part};
use crate::calls::{self, Rooms};
use crate::jobs::{damaged, many_triangles, sound, Made};
use crate::random::Random;
use crate::reference::job;
use crate::tally::{refusal, Tally};

pub const GROUP: Group = Group { name: "check", run, wanted: |_| (refusals((2..=13).chain([22, 23]), &["sound"]), 50) };

/// Of three jobs one is as it was made, the others damaged; some have 16 points, some the most triangles.
pub fn any_job(random: &mut Random, most_points: usize) -> Made {
    let count = if random.one_in(200) { 16 } else { 4 + random.below(most_points - 3) };
    let made = if random.one_in(400) { many_triangles(random) } else { sound(random, count) };
    match random.below(300) {
        0 => Made::default(),
        1..=99 => made,
        _ => damaged(random, made),
    }
}

fn run(part: &Part) -> Tally {
    let mut tally = Tally::default();
    let mut rooms = Rooms::new();
    for seed in part.seeds(30_000) {
        let made = any_job(&mut Random::new(seed), 8);
        let expected = job::check(&made.lists()).map_or_else(|number| number, |_| 0);
        let job = rooms.lend(&made);
        let safely = cottontuff::check(&job).map_or_else(|number| number.0, |()| 0);
        let kind = if expected == 0 { "sound".to_string() } else { refusal(expected) };
        tally.compare(kind, &[expected; 2], &[calls::check(&job), safely], || made.told());
    }
    tally
}
