//! The judge: fillings, parts of them, changed and random lists, lists far too long; on sound and on damaged jobs.
use super::check::any_job;
use super::{refusals, Group, Part};
use crate::calls::{self, Rooms};
use crate::jobs::Made;
use crate::lent::Room;
use crate::random::Random;
use crate::reference::job::{self, fours, Four, Job};
use crate::reference::search::best_by_faces;
use crate::tally::{refusal, Tally};
use cottontuff::{Judgement, Number};

pub const GROUP: Group = Group { name: "judge", run, wanted };

fn wanted(_: &Part) -> (Vec<String>, u64) {
    let laws = ["law 1", "law 2", "law 3", "law 4", "law 5", "law 6", "law 7", "law 8", "lawful"];
    (refusals((2..=13).chain([22, 23]), &laws), 20)
}

fn bytes(list: &[Four]) -> Vec<u8> {
    list.iter().flatten().map(|p| *p as u8).collect()
}

/// One change to a list's bytes.
fn changed(random: &mut Random, mut list: Vec<u8>) -> Vec<u8> {
    let at = random.below(list.len().max(1));
    let four = at / 4 * 4;
    match random.below(7) {
        0 if !list.is_empty() => list[at] = random.any(&[0, 1, 2, 3, 4, 5, 6, 15, 16, 128, 255]),
        1 if four + 8 <= list.len() => list[four..four + 8].rotate_left(4),
        2 if list.len() >= 4 => list.extend_from_within(four..four + 4),
        3 if list.len() >= 4 => list[four..four + 4].reverse(),
        4 if list.len() >= 4 => drop(list.drain(four..four + 4)),
        5 => list.truncate(at),
        _ => list.extend([0, 1, 2, 3]),
    }
    list
}

/// The lists to judge for a job: what it was made from, its best filling, every candidate list that chance gives.
fn lists(random: &mut Random, made: &Made, job: Option<&Job>) -> Vec<Vec<u8>> {
    let all = fours((made.points.len() / 3).min(16));
    let some = 2 + random.below(9);
    let chance: Vec<Four> = all.iter().copied().filter(|_| random.one_in(some)).collect();
    let fewer: Vec<Four> = made.filling.iter().copied().filter(|_| !random.one_in(4)).collect();
    let mut lists = vec![bytes(&made.filling), bytes(&chance), bytes(&fewer)];
    if let Some(Some(Some((_, list)))) = job.map(|job| best_by_faces(job, 300)) {
        lists.push(bytes(&list));
    }
    lists.push(changed(random, lists[0].clone()));
    if random.one_in(50) {
        let count = random.any(&[1, 3, 1820 * 4, 1820 * 4 + 4, 100_000]);
        lists.extend([bytes(&all), Vec::new(), random.bytes(count)]);
    }
    lists
}

/// One list judged: the kind of the answer, what the library is to say, and what its safe function is.
pub fn expected(job: &Result<Job, u32>, list: &[u8]) -> (String, ([u32; 3], Result<Judgement, Number>)) {
    let numbers: Vec<usize> = list.iter().map(|b| usize::from(*b)).collect();
    match job.as_ref().map(|job| job.judge(&numbers)) {
        Err(number) => (refusal(*number), ([*number, 0, 0], Err(Number(*number)))),
        Ok(Err(law)) => (format!("law {law}"), ([0, law, 0], Ok(Judgement::Breaks(law)))),
        Ok(Ok(w)) => ("lawful".to_string(), ([0, 0, w as u32], Ok(Judgement::Lawful(w as u32)))),
    }
}

fn run(part: &Part) -> Tally {
    let mut tally = Tally::default();
    let (mut rooms, mut room) = (Rooms::new(), Room::new(16_384));
    for seed in part.seeds(12_000) {
        let mut random = Random::new(1_000_000 + seed);
        let made = any_job(&mut random, 8);
        let job = job::check(&made.lists());
        for list in lists(&mut random, &made, job.as_ref().ok()) {
            let (kind, expected) = expected(&job, &list);
            let (job, list) = (rooms.lend(&made), room.lend(&list));
            let got = (calls::judge(&job, list), cottontuff::judge(&job, list));
            tally.compare(kind, &expected, &got, || format!("{list:?} on {}", made.told()));
        }
    }
    tally
}
