//! The search against listing every lawful filling, on jobs of up to seven points; every byte of the answer buffer, whatever its length.
use super::check::any_job;
use super::{refusals, Group, Part};
use crate::calls::{self, Rooms};
use crate::jobs::{sound, Made};
use crate::lent::Room;
use crate::random::Random;
use crate::reference::job::{self, Job};
use crate::reference::search::{best_by_faces, best_of_all_lists, Best};
use crate::tally::{refusal, Tally};

pub const GROUP: Group = Group { name: "search", run, wanted };

fn wanted(_: &Part) -> (Vec<String>, u64) {
    let kinds =
        ["filled", "filled, listed twice", "filled, not the one it was made from", "filled, with inner triangles", "15, with inner triangles"];
    (refusals((2..=15).chain([22, 23]), &kinds), 20)
}

const STEPS: u64 = 20_000;

/// Number, count and worst quality, and the answer buffer afterwards.
type Answer = ([u32; 3], Vec<u8>);

/// Refused by the checker, by a short buffer, or with 15; else the list at the start of the buffer.
pub fn expected(job: &Result<(Job, Best), u32>, mut buffer: Vec<u8>) -> Answer {
    let (worst, list) = match job {
        Err(number) => return ([*number, 0, 0], buffer),
        Ok(_) if buffer.len() < 7280 => return ([14, 0, 0], buffer),
        Ok((_, None)) => return ([15, 0, 0], buffer),
        Ok((_, Some((worst, list)))) => (*worst as u32, list),
    };
    for (to, number) in buffer.iter_mut().zip(list.iter().flatten()) {
        *to = *number as u8;
    }
    ([0, list.len() as u32, worst], buffer)
}

/// The job and its best filling; where the fours are few, all lists are judged as well.
fn searched(tally: &mut Tally, made: &Made, twice: bool) -> Option<Result<(Job, Best), u32>> {
    let job = match job::check(&made.lists()) {
        Err(number) => return Some(Err(number)),
        Ok(job) => job,
    };
    let best = best_by_faces(&job, STEPS)?;
    if job.points.len() <= 5 || (twice && job.points.len() == 6) {
        let listed = best_of_all_lists(&job);
        let kind = if listed.is_some() { "filled, listed twice" } else { "none, listed twice" };
        tally.compare(kind.to_string(), &listed, &best, || made.told());
    }
    Some(Ok((job, best)))
}

pub fn safely(job: &cottontuff::Job, answer: &mut [u8]) -> [u32; 3] {
    match cottontuff::search_into(job, answer) {
        Ok(found) => [0, found.count as u32, found.worst],
        Err(number) => [number.0, 0, 0],
    }
}

fn run(part: &Part) -> Tally {
    let mut tally = Tally::default();
    let (mut rooms, mut room) = (Rooms::new(), Room::new(16_384));
    for seed in part.seeds(12_000) {
        let mut random = Random::new(2_000_000 + seed);
        let count = 4 + random.below(4);
        let made = if random.one_in(3) { any_job(&mut random, 7) } else { sound(&mut random, count) };
        let Some(job) = searched(&mut tally, &made, random.one_in(40)) else {
            tally.count("given up");
            continue;
        };
        let len = random.any(&[0, 7, 7279, 7280, 7280, 7280, 7281, 9000]);
        let fill = random.bits() as u8;
        let pattern: Vec<u8> = (0..len).map(|i| fill ^ i as u8).collect();
        let expected = expected(&job, pattern.clone());
        let kind = if expected.0[0] == 0 { "filled".to_string() } else { refusal(expected.0[0]) };
        if !made.inner.is_empty() && matches!(expected.0[0], 0 | 15) {
            tally.count(if expected.0[0] == 0 { "filled, with inner triangles" } else { "15, with inner triangles" });
        }
        if matches!(&job, Ok((_, Some(best))) if best.1 != made.filling) {
            tally.count("filled, not the one it was made from");
        }
        let got = [calls::search, safely].map(|search| {
            let buffer = room.lend(&pattern);
            (search(&rooms.lend(&made), buffer), buffer.to_vec())
        });
        tally.compare(kind, &[expected.clone(), expected], &got, || made.told());
    }
    tally
}
