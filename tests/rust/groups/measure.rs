//! Measuring: small, wide and flat tetrahedra, every limit, lists that are not twelve long. Doubles are compared bit by bit.
use super::{refusals, Group, Part};
use crate::calls;
use crate::lent::Room;
use crate::random::Random;
use crate::reference::measure::{measure, Measurement};
use crate::tally::{refusal, Tally};
use cottontuff::Measured;

pub const GROUP: Group =
    Group { name: "measure", run, wanted: |_| (refusals([3, 16], &["flat", "shape", "shape above 1"]), 500) };

fn coordinates(random: &mut Random) -> Vec<i32> {
    let size = random.any(&[1, 2, 3, 10, 100, 10_000, 50_000]);
    let count = if random.one_in(8) { random.any(&[0, 1, 3, 11, 13, 24, 1000]) } else { 12 };
    let mut list: Vec<i32> = (0..count).map(|_| random.within(-size, size)).collect();
    match random.below(6) {
        0 if !list.is_empty() => {
            let at = random.below(list.len());
            list[at] = random.any(&[50_000, -50_000, 50_001, -50_001, 10_001, i32::MIN, i32::MAX, 65_536, -65_536]);
        }
        // Far corners, and thin elements between them.
        1 => list.iter_mut().for_each(|x| *x = random.any(&[-50_000, 50_000, 49_999, -49_999])),
        // The last corner in the plane of the others.
        2 if list.len() == 12 => (0..3).for_each(|i| list[9 + i] = list[i] + list[3 + i] - list[6 + i]),
        // A regular one: the shape number is 1 but for its roundings, and may be above.
        3 if list.len() == 12 => {
            let k = random.within(1, 50_000);
            list = vec![0, 0, 0, k, k, 0, k, 0, k, 0, k, k];
        }
        _ => {}
    }
    list
}

/// Every field that C gets.
fn fields(m: Measurement) -> ([u64; 3], [u32; 3]) {
    match m {
        Measurement::Refused(number) => ([0; 3], [number, 0, 0]),
        Measurement::Flat { s } => ([0, s.to_bits(), 0], [0, 1, 0]),
        Measurement::Shape { d, s, shape, millionths } => ([d, s, shape].map(f64::to_bits), [0, 0, millionths]),
    }
}

fn safely(list: &[i32]) -> Measurement {
    match cottontuff::measure(list) {
        Err(number) => Measurement::Refused(number.0),
        Ok(Measured::Flat { s }) => Measurement::Flat { s },
        Ok(Measured::Shape { d, s, shape, millionths }) => Measurement::Shape { d, s, shape, millionths },
    }
}

fn run(part: &Part) -> Tally {
    let mut tally = Tally::default();
    let mut room = Room::new(16_384);
    for seed in part.seeds(200_000) {
        let list = coordinates(&mut Random::new(4_000_000 + seed));
        let expected = measure(&list);
        let lent = room.lend(&list);
        let m = calls::measure(lent);
        let got = ([m.d, m.s, m.shape].map(f64::to_bits), [m.number, m.flat, m.millionths]);
        let kind = match expected {
            Measurement::Refused(number) => refusal(number),
            Measurement::Flat { .. } => "flat".to_string(),
            Measurement::Shape { shape, .. } if shape > 1.0 => "shape above 1".to_string(),
            Measurement::Shape { .. } => "shape".to_string(),
        };
        tally.compare(kind, &(fields(expected), expected), &(got, safely(lent)), || format!("{list:?}"));
    }
    tally
}
