//! The limited search against the rule of trials followed in the plainest way, five limits a job; every byte of the answer buffer, whatever its length.
//! What the five say together: a larger limit finds no worse, and what is not spent is what the search answers.
use super::check::any_job;
use super::{refusals, Group, Part};
use crate::calls::{self, Rooms};
use crate::jobs::{sound, Made};
use crate::lent::Room;
use crate::random::Random;
use crate::reference::job::{self, Job};
use crate::reference::trials::follow;
use crate::tally::{refusal, Tally};
use cottontuff::{Ending, Filling, Limited, Number};

pub const GROUP: Group = Group { name: "limited search", run, wanted };

fn wanted(_: &Part) -> (Vec<String>, u64) {
    let kinds =
        ["filled", "spent, filled", "spent, none found", "none, as the search", "filled, as the search", "no lower"];
    (refusals((2..=15).chain([22, 23]), &kinds), 20)
}

/// A job that makes more trials is asked at limits below it.
const MOST: u32 = 1_000;

/// Number, spent, count, worst quality and trials, and the answer buffer afterwards.
pub type Answer = ([u32; 5], Vec<u8>);

/// Refused by the checker or by a short buffer; else what the rule gives, a list at the start of the buffer.
pub fn expected(job: &Result<Job, u32>, limit: u32, mut buffer: Vec<u8>) -> Answer {
    let job = match job {
        Err(number) => return ([*number, 0, 0, 0, 0], buffer),
        Ok(_) if buffer.len() < 7280 => return ([14, 0, 0, 0, 0], buffer),
        Ok(job) => job,
    };
    let run = follow(job, limit);
    let spent = u32::from(run.spent);
    let Some((worst, list)) = run.best else {
        return ([if run.spent { 0 } else { 15 }, spent, 0, 0, run.trials], buffer);
    };
    for (to, number) in buffer.iter_mut().zip(list.iter().flatten()) {
        *to = *number as u8;
    }
    ([0, spent, list.len() as u32, worst as u32, run.trials], buffer)
}

pub fn kind(answer: &Answer) -> String {
    match answer.0 {
        [0, 0, ..] => "filled".to_string(),
        [0, _, 0, ..] => "spent, none found".to_string(),
        [0, ..] => "spent, filled".to_string(),
        [number, ..] => refusal(number),
    }
}

/// What the safe function says for an answer into a buffer of 7,280 bytes at least.
pub fn safely(answer: &Answer) -> Result<Limited, Number> {
    let [number, spent, count, worst, trials] = answer.0;
    if !matches!(number, 0 | 15) {
        return Err(Number(number));
    }
    let found = number == 0 && (spent == 0 || count > 0);
    let fours = || answer.1.chunks(4).take(count as usize).map(|f| [f[0], f[1], f[2], f[3]]).collect();
    let filling = found.then(|| Filling { fours: fours(), worst });
    Ok(Limited { ending: if spent == 0 { Ending::Complete } else { Ending::Spent }, filling, trials })
}

/// Around the count of all trials, where it is below `MOST`, and less; rising.
fn limits(random: &mut Random, job: &Result<Job, u32>) -> [u32; 5] {
    let count = job.as_ref().map_or(0, |job| follow(job, MOST).trials);
    let some = random.below(count as usize + 1) as u32;
    let more = if count == MOST { count / 2 } else { random.any(&[count + 1, count + 1_000]) };
    let mut limits = [0, some, count.saturating_sub(1), count, more];
    limits.sort();
    limits
}

struct Asked {
    made: Made,
    job: Result<Job, u32>,
    rooms: Rooms,
    answer: Room,
}

fn compared(tally: &mut Tally, asked: &mut Asked, limit: u32, pattern: &[u8]) {
    let Asked { made, job, rooms, answer } = asked;
    let told = || format!("limit {limit} on {}", made.told());
    let expected = expected(job, limit, pattern.to_vec());
    let buffer = answer.lend(pattern);
    let got = (calls::search_limited(&rooms.lend(made), limit, buffer), buffer.to_vec());
    tally.compare(kind(&expected), &expected, &got, told);
    // The safe function lends a buffer that is long enough.
    if expected.0[0] != 14 {
        let got = cottontuff::search_limited(&rooms.lend(made), limit);
        tally.compare("by the safe function".to_string(), &safely(&expected), &got, told);
    }
}

/// Of the library alone: no filling is lost and no worst quality falls from limit to limit; an unspent answer is that of the search.
fn together(tally: &mut Tally, made: &Made, limits: [u32; 5]) {
    let found = limits.map(|limit| cottontuff::search_limited(&made.job(), limit));
    let worst = |l: &Result<Limited, Number>| l.as_ref().ok().and_then(|l| l.filling.as_ref()).map(|f| f.worst);
    let rising = found.windows(2).all(|two| worst(&two[0]) <= worst(&two[1]));
    tally.compare("no lower".to_string(), &true, &rising, || format!("{limits:?} on {}", made.told()));
    for limited in found.into_iter().flatten().filter(|l| l.ending == Ending::Complete) {
        let searched = cottontuff::search(&made.job());
        let kind = if searched.is_ok() { "filled, as the search" } else { "none, as the search" };
        tally.compare(kind.to_string(), &searched, &limited.filling.ok_or(Number::NO_FILLING), || made.told());
    }
}

fn run(part: &Part) -> Tally {
    let mut tally = Tally::default();
    let mut asked = Asked { made: Made::default(), job: Err(2), rooms: Rooms::new(), answer: Room::new(16_384) };
    for seed in part.seeds(6_000) {
        let mut random = Random::new(7_000_000 + seed);
        let count = if random.one_in(8) { 10 + random.below(7) } else { 4 + random.below(6) };
        asked.made = if random.one_in(3) { any_job(&mut random, 8) } else { sound(&mut random, count) };
        asked.job = job::check(&asked.made.lists());
        let limits = limits(&mut random, &asked.job);
        for limit in limits {
            let len = random.any(&[0, 7279, 7280, 7280, 7280, 7280, 7281, 9000]);
            let fill = random.bits() as u8;
            let pattern: Vec<u8> = (0..len).map(|i| fill ^ i as u8).collect();
            compared(&mut tally, &mut asked, limit, &pattern);
        }
        together(&mut tally, &asked.made, limits);
    }
    tally
}
