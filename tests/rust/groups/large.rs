//! The search on jobs of 8 to 16 points, where listing takes too long: its filling is lawful, has the worst quality that is said,
//! and is no worse than the filling that the job was made from, nor behind it among equals.
use super::{Group, Part};
use crate::calls::Rooms;
use crate::jobs::{many_triangles, sound};
use crate::random::Random;
use crate::reference::job::{self, Four};
use crate::reference::search::best_by_faces;
use crate::tally::Tally;

pub const GROUP: Group = Group { name: "search, 8 to 16 points", run, wanted };

fn wanted(_: &Part) -> (Vec<String>, u64) {
    (["filled", "none", "filled, all listed", "none, all listed"].map(String::from).to_vec(), 20)
}

const STEPS: u64 = 2_000;

fn run(part: &Part) -> Tally {
    let mut tally = Tally::default();
    let mut rooms = Rooms::new();
    for seed in part.seeds(1_500) {
        let mut random = Random::new(3_000_000 + seed);
        let count = 8 + random.below(9);
        let made = if random.one_in(100) { many_triangles(&mut random) } else { sound(&mut random, count) };
        let Ok(job) = job::check(&made.lists()) else { continue };
        let of_made = job.lowest_broken(&made.filling).is_none().then(|| job.worst(&made.filling));
        let got = cottontuff::search(&rooms.lend(&made)).map_err(|number| number.0);
        let list: Result<Vec<Four>, u32> =
            got.as_ref().map(|f| f.fours.iter().map(|f| f.map(usize::from)).collect()).map_err(|number| *number);
        let sound = match (&got, &list) {
            (Ok(filling), Ok(list)) => {
                let numbers: Vec<usize> = list.iter().flatten().copied().collect();
                let first = |worst: i32| (-(filling.worst as i32), list) <= (-worst, &made.filling);
                job.judge(&numbers) == Ok(filling.worst as i32) && of_made.is_none_or(first)
            }
            _ => list == Err(15) && of_made.is_none(),
        };
        let kind = if list.is_ok() { "filled" } else { "none" };
        tally.compare(kind.to_string(), &true, &sound, || made.told());
        if let Some(best) = best_by_faces(&job, STEPS) {
            let got = list.ok().map(|list| (got.map_or(0, |f| f.worst as i32), list));
            tally.compare(format!("{kind}, all listed"), &best, &got, || made.told());
        }
    }
    tally
}
