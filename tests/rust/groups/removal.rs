//! Edge removal against the reference: rings around an edge with noise in place, height and order, rings of any points, and damaged ones; every byte of the answer
//! buffer, whatever its length. The search on the ring's job has no lower worst quality.
use super::{refusals, Group, Part};
use crate::calls;
use crate::jobs::table;
use crate::lent::Room;
use crate::random::Random;
use crate::reference::rings::{remove_edge, Removed, Ring};
use crate::tally::{refusal, Tally};
use cottontuff::{Filling, Job, Number};

pub const GROUP: Group = Group { name: "edge removal", run, wanted };

fn wanted(_: &Part) -> (Vec<String>, u64) {
    let kinds = [
        "ring of 3",
        "ring of 4",
        "ring of 5",
        "ring of 6",
        "ring of 7",
        "rows tied",
        "tied, not the first list",
        "search as good",
        "search better",
        "26, and the search has a filling",
        "26, and no filling exists",
    ];
    (refusals([2, 3, 4, 11, 12, 13, 14, 25, 26], &kinds), 20)
}

/// Number, count and worst quality, and the answer buffer afterwards.
pub type Answer = ([u32; 3], Vec<u8>);

pub fn expected(removed: &Result<Removed, u32>, mut buffer: Vec<u8>) -> Answer {
    match removed {
        Err(number) => ([*number, 0, 0], buffer),
        Ok(removed) => {
            for (to, number) in buffer.iter_mut().zip(removed.list.iter().flatten()) {
                *to = *number as u8;
            }
            ([0, removed.list.len() as u32, removed.worst as u32], buffer)
        }
    }
}

/// What the safe function says for an answer into a buffer of 7,280 bytes at least.
pub fn safely(answer: &Answer) -> Result<Filling, Number> {
    match answer.0 {
        [0, count, worst] => {
            let fours = answer.1.chunks(4).take(count as usize).map(|f| [f[0], f[1], f[2], f[3]]).collect();
            Ok(Filling { fours, worst })
        }
        [number, ..] => Err(Number(number)),
    }
}

/// The points of a ring around an edge from (0, 0, h) down to (0, 0, -h), counter-clockwise seen from the upper end, each moved by chance.
fn around(random: &mut Random, size: usize) -> Vec<[i32; 3]> {
    let wide = random.any(&[4, 30, 1_000, 30_000]);
    let noise = random.any(&[0, wide / 10, wide / 4]);
    let high = wide * random.any(&[1, 2, 6]) / 4;
    let mut moved = |at: f64| at as i32 + random.within(-noise, noise);
    let turn = |i: usize| (i as f64 * std::f64::consts::TAU / size as f64).sin_cos();
    let mut places: Vec<[i32; 3]> = (0..size)
        .map(|i| {
            let (sin, cos) = turn(i);
            [moved(cos * wide as f64), moved(sin * wide as f64), moved(0.0) / 4]
        })
        .collect();
    places.extend([[moved(0.0) / 2, moved(0.0) / 2, high], [moved(0.0) / 2, moved(0.0) / 2, -high]]);
    places
}

/// The places numbered by chance.
fn sound(random: &mut Random) -> Ring {
    let size = 3 + random.below(5);
    let places = match random.below(5) {
        0 => (0..size + 2).map(|_| [0; 3].map(|_| random.within(0, 3))).collect(),
        _ => around(random, size),
    };
    let mut number: Vec<usize> = (0..size + 2).collect();
    for i in 1..number.len() {
        number.swap(i, random.below(i + 1));
    }
    let mut points = vec![0; 3 * places.len()];
    for (place, at) in places.iter().zip(&number) {
        points[3 * at..3 * at + 3].copy_from_slice(place);
    }
    let mut ring: Vec<u8> = number[..size].iter().map(|p| *p as u8).collect();
    ring.rotate_left(random.below(size));
    if random.one_in(12) {
        ring.reverse();
    }
    let table = table(random, &points);
    Ring { points, ends: [number[size] as u32, number[size + 1] as u32], ring, table }
}

/// One fault, or a change that is none.
fn damage(random: &mut Random, ring: &mut Ring) {
    let (coordinates, entries, size) = (ring.points.len(), ring.table.len(), ring.ring.len());
    if coordinates == 0 || entries == 0 || size == 0 {
        return;
    }
    let (of_points, of_table, at) = (random.below(coordinates), random.below(entries), random.below(size));
    let absent = [0, 1, 2, coordinates as u32 / 3, 255, 256, 257, 65_536, u32::MAX];
    match random.below(13) {
        0 => ring.ends[random.below(2)] = random.any(&absent),
        1 => ring.ends[random.below(2)] |= random.any(&[1 << 8, 1 << 16, 1 << 31]),
        2 => ring.ring[at] = random.any(&[0, 1, 2, 8, 9, 16, 255]),
        3 => drop(ring.ring.remove(at)),
        4 => ring.ring.push(random.below(10) as u8),
        5 => ring.ring.swap(0, at),
        6 => ring.points.push(random.within(-3, 3)),
        7 => drop(ring.points.pop()),
        8 => ring.points[of_points] = random.any(&[50_000, 50_001, -50_001, i32::MIN, i32::MAX]),
        9 => ring.points.copy_within(0..3, 3),
        10 => ring.table.truncate(of_table),
        11 => ring.table.extend([1; 3]),
        _ => ring.table[of_table] = random.any(&[-2, -1, -1, 0, 1_000_000, 1_000_001, i32::MIN]),
    }
}

struct Rooms {
    points: Room,
    ring: Room,
    table: Room,
    answer: Room,
}

/// Whether the lists are as they were, beside what the library answers.
fn asked(rooms: &mut Rooms, of: &Ring, pattern: &[u8]) -> (Answer, bool) {
    let (points, ring, table) = (rooms.points.lend(&of.points), rooms.ring.lend(&of.ring), rooms.table.lend(&of.table));
    let buffer = rooms.answer.lend(pattern);
    let got = calls::remove_edge(points, of.ends, ring, table, buffer);
    ((got, buffer.to_vec()), *points == of.points[..] && *ring == of.ring[..] && *table == of.table[..])
}

fn kind(ring: &Ring, answer: &Answer) -> String {
    match answer.0[0] {
        0 => format!("ring of {}", ring.ring.len()),
        number => refusal(number),
    }
}

/// The search on the ring's job beside the answer.
fn beside_search(tally: &mut Tally, ring: &Ring, answer: &Answer) {
    let triangles: Vec<u8> = ring.boundary().iter().map(|p| *p as u8).collect();
    let job = Job { points: &ring.points, triangles: &triangles, table: &ring.table, ..Job::default() };
    let (kind, right) = match (answer.0, cottontuff::search(&job)) {
        ([0, _, worst], Ok(filling)) if filling.worst == worst => ("search as good", true),
        ([0, _, worst], Ok(filling)) => ("search better", filling.worst > worst),
        ([26, ..], Ok(_)) => ("26, and the search has a filling", true),
        ([26, ..], searched) => ("26, and no filling exists", searched == Err(Number::NO_FILLING)),
        _ => ("no filling beside a lawful row", false),
    };
    tally.compare(kind.to_string(), &true, &right, || format!("{ring:?}"));
}

fn compared(tally: &mut Tally, rooms: &mut Rooms, ring: &Ring, pattern: &[u8]) {
    let removed = remove_edge(ring, pattern.len());
    let expected = expected(&removed, pattern.to_vec());
    let got = asked(rooms, ring, pattern);
    let told = || format!("{} bytes, {ring:?}", pattern.len());
    tally.compare(kind(ring, &expected), &(expected.clone(), true), &got, told);
    // The safe function lends a buffer that is long enough.
    if expected.0[0] != 14 {
        let got = cottontuff::remove_edge(&ring.points, ring.ends[0], ring.ends[1], &ring.ring, &ring.table);
        tally.compare("by the safe function".to_string(), &safely(&expected), &got, told);
    }
    if let Ok(removed) = removed {
        removed.tied.gt(&1).then(|| tally.count("rows tied"));
        removed.later.then(|| tally.count("tied, not the first list"));
    }
    if matches!(expected.0[0], 0 | 26) {
        beside_search(tally, ring, &expected);
    }
}

fn run(part: &Part) -> Tally {
    let mut tally = Tally::default();
    let room = || Room::new(16_384);
    let mut rooms = Rooms { points: room(), ring: room(), table: room(), answer: room() };
    for seed in part.seeds(12_000) {
        let mut random = Random::new(9_000_000 + seed);
        let mut ring = sound(&mut random);
        if random.one_in(3) {
            (0..1 + random.below(3)).for_each(|_| damage(&mut random, &mut ring));
        }
        let len = random.any(&[0, 40, 7279, 7280, 7280, 7280, 7280, 7280, 7281, 9000]);
        let fill = random.bits() as u8;
        let pattern: Vec<u8> = (0..len).map(|i| fill ^ i as u8).collect();
        compared(&mut tally, &mut rooms, &ring, &pattern);
    }
    tally
}
