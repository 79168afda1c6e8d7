//! Measuring whole tables: 0 to 17 points, entries that stand and entries of −1, tables of wrong lengths. A refusal leaves every entry.
use super::{refusals, Group, Part};
use crate::calls;
use crate::lent::Room;
use crate::random::Random;
use crate::reference::job::{far, fours, same_place};
use crate::reference::measure::entry;
use crate::tally::{refusal, Tally};

pub const GROUP: Group =
    Group { name: "tables", run, wanted: |_| (refusals([2, 3, 4, 11], &["measured", "with flat fours"]), 100) };

fn points(random: &mut Random) -> Vec<i32> {
    let size = random.any(&[1, 2, 5, 100, 10_000, 50_000]);
    let count = random.any(&[0, 3, 4, 4, 5, 6, 7, 8, 11, 16, 17]);
    let mut list: Vec<i32> = (0..3 * count).map(|_| random.within(-size, size)).collect();
    match random.below(12) {
        0 => list.push(random.within(-size, size)),
        1 if !list.is_empty() => {
            let at = random.below(list.len());
            list[at] = random.any(&[50_000, -50_000, 50_001, -50_001, 10_001, i32::MIN, i32::MAX]);
        }
        // The fourth point in the plane of the first three.
        2 if list.len() >= 12 => {
            (0..3).for_each(|i| list[9 + i] = (list[i] + list[3 + i] - list[6 + i]).clamp(-50_000, 50_000))
        }
        _ => {}
    }
    list
}

fn table(random: &mut Random, count: usize) -> Vec<i32> {
    let all = fours(count).len();
    let len = if random.one_in(8) { random.any(&[0, 1, all.saturating_sub(1), all + 1, 2000]) } else { all };
    let standing = random.any(&[1, 2, 10, usize::MAX]);
    let other = |random: &mut Random| random.any(&[0, 1, 1_000_000, 1_000_001, -2, i32::MIN, i32::MAX]);
    (0..len).map(|_| if random.one_in(standing) { other(random) } else { -1 }).collect()
}

/// The number, and the table afterwards.
fn expected(points: &[i32], table: &[i32]) -> (u32, Vec<i32>) {
    let count = points.len() / 3;
    let all = fours(count);
    let number = if points.len() % 3 != 0 || !(4..=16).contains(&count) {
        2
    } else if far(points) {
        3
    } else if same_place(points) {
        4
    } else if table.len() != all.len() {
        11
    } else {
        0
    };
    if number != 0 {
        return (number, table.to_vec());
    }
    let measured =
        |f: &[usize; 4]| entry(&f.iter().flat_map(|p| points[3 * p..3 * p + 3].to_vec()).collect::<Vec<i32>>());
    (0, all.iter().zip(table).map(|(f, v)| if *v == -1 { measured(f) } else { *v }).collect())
}

fn safely(points: &[i32], table: &mut [i32]) -> u32 {
    cottontuff::measure_table(points, table).map_or_else(|number| number.0, |()| 0)
}

fn run(part: &Part) -> Tally {
    let mut tally = Tally::default();
    let (mut room, mut tables) = (Room::new(4_096), Room::new(16_384));
    for seed in part.seeds(6_000) {
        let mut random = Random::new(11_000_000 + seed);
        let points = points(&mut random);
        let table = table(&mut random, points.len() / 3);
        let (number, after) = expected(&points, &table);
        let lent = tables.lend(&table);
        let got = calls::measure_table(room.lend(&points), lent);
        let mut again = table.clone();
        let same = (safely(&points, &mut again), again);
        let kind = match number {
            0 if after.contains(&-1) => "with flat fours".to_string(),
            0 => "measured".to_string(),
            _ => refusal(number),
        };
        tally.compare(kind, &((number, after.clone()), (number, after)), &((got, lent.to_vec()), same), || {
            format!("{points:?} {table:?}")
        });
    }
    tally
}
