//! Why not this four, against the reasons told from the lawful fillings: every four of each job and fours that are none. On jobs of five points and fewer the
//! fillings are all listed, on larger ones they come from face to face. The lists stand in memory that is looked at afterwards: nothing is written to it.
use super::check::any_job;
use super::{refusals, Group, Part};
use crate::calls::{self, Rooms};
use crate::jobs::{sound, Made};
use crate::random::Random;
use crate::reference::job::{self, fours, Job};
use crate::reference::reasons::{all_fillings, explain, Fillings};
use crate::reference::search::{best_by_faces, Best};
use crate::tally::{refusal, Tally};
use cottontuff::{Number, Reason};

pub const GROUP: Group = Group { name: "explanation", run, wanted };

fn wanted(_: &Part) -> (Vec<String>, u64) {
    let reasons: Vec<String> = (1..=7).map(|reason| kind([0, reason, 0])).collect();
    let reasons: Vec<&str> = reasons.iter().map(String::as_str).collect();
    (refusals((2..=13).chain([15, 22, 23, 24]), &reasons), 20)
}

const STEPS: u64 = 2_000;
/// More points are not listed.
const FEW: usize = 5;

pub fn kind(answer: [u32; 3]) -> String {
    match answer {
        [0, reason, _] => format!("W {reason}"),
        [number, ..] => refusal(number),
    }
}

/// What the safe function says for an answer.
pub fn safely(answer: [u32; 3]) -> Result<Reason, Number> {
    match answer {
        [0, 1, 0] => Ok(Reason::InAnswer),
        [0, 2, 0] => Ok(Reason::Flat),
        [0, 3, 0] => Ok(Reason::Barred),
        [0, 4, point] => Ok(Reason::PointInside(point)),
        [0, 5, 0] => Ok(Reason::NoFillingHoldsIt),
        [0, 6, worst] => Ok(Reason::Lower(worst)),
        [0, 7, 0] => Ok(Reason::Later),
        [number, ..] => Err(Number(number)),
    }
}

/// Fours that are there and fours that are not: repeated, falling, of absent points, of numbers whose low bytes are points.
fn strange(random: &mut Random, count: usize) -> [u32; 4] {
    let n = count as u32;
    let any =
        [0, 1, 2, 3, 4, n.saturating_sub(1), n, n + 1, 15, 16, 255, 256, 257, 65_536, 1 << 31, u32::MAX - 1, u32::MAX];
    let mut four = [0; 4].map(|_| random.any(&any));
    if random.one_in(2) {
        four.sort();
    }
    four
}

/// All of a small job, some of a large one, and strange ones.
fn asked(random: &mut Random, count: usize) -> Vec<[u32; 4]> {
    let mut asked: Vec<[u32; 4]> = fours(count.min(16)).into_iter().map(|f| f.map(|p| p as u32)).collect();
    while asked.len() > 40 {
        asked.swap_remove(random.below(asked.len()));
    }
    asked.extend((0..4).map(|_| strange(random, count)));
    asked
}

/// What is expected of each four; nothing where the steps do not suffice.
fn expected(job: &Result<(Job, Best), u32>, asked: &[[u32; 4]]) -> Vec<Option<[u32; 3]>> {
    let (job, best) = match job {
        Err(number) => return asked.iter().map(|_| Some([*number, 0, 0])).collect(),
        Ok((job, best)) => (job, best),
    };
    let listed = if job.points.len() <= FEW { all_fillings(job) } else { Vec::new() };
    let fillings = if job.points.len() <= FEW { Fillings::Listed(&listed) } else { Fillings::ByFaces(STEPS) };
    asked.iter().map(|four| explain(job, best, *four, &fillings)).collect()
}

fn compared(tally: &mut Tally, rooms: &mut Rooms, made: &Made, four: [u32; 4], expected: [u32; 3]) {
    let lent = rooms.lend(made);
    let got = (calls::explain(&lent, four), cottontuff::explain(&lent, four));
    tally.compare(kind(expected), &(expected, safely(expected)), &got, || format!("{four:?} on {}", made.told()));
    if [lent.points, lent.table] != [&made.points[..], &made.table]
        || [lent.triangles, lent.kept, lent.inner] != [&made.triangles[..], &made.kept, &made.inner]
    {
        tally.compare("a list was changed".to_string(), &true, &false, || format!("{four:?} on {}", made.told()));
    }
}

fn run(part: &Part) -> Tally {
    let mut tally = Tally::default();
    let mut rooms = Rooms::new();
    for seed in part.seeds(8_000) {
        let mut random = Random::new(8_000_000 + seed);
        let count = if random.one_in(10) { 8 + random.below(9) } else { 4 + random.below(4) };
        let made = if random.one_in(3) { any_job(&mut random, 7) } else { sound(&mut random, count) };
        let job = match job::check(&made.lists()) {
            Err(number) => Err(number),
            Ok(job) => match best_by_faces(&job, STEPS) {
                Some(best) => Ok((job, best)),
                None => {
                    tally.count("given up");
                    continue;
                }
            },
        };
        let asked = asked(&mut random, made.points.len() / 3);
        for (four, expected) in asked.iter().zip(expected(&job, &asked)) {
            match expected {
                Some(expected) => compared(&mut tally, &mut rooms, &made, *four, expected),
                None => tally.count("given up"),
            }
        }
    }
    tally
}
