//! The empty job and its neighbours: every pattern of empty and non-empty lists, a list being case B's or one entry, by checker, judge and search with
//! buffers of every kind of length; and every text of up to two lines of few kinds.
use super::judge;
use super::search::{expected, safely};
use super::{refusals, Group, Part};
use crate::calls::{self, Rooms};
use crate::jobs::Made;
use crate::lent::Room;
use crate::reference::job;
use crate::reference::search::best_by_faces;
use crate::reference::text::print;
use crate::tally::{refusal, Tally};

pub const GROUP: Group = Group { name: "the empty job", run, wanted };

fn wanted(_: &Part) -> (Vec<String>, u64) {
    let kinds =
        ["filled by none", "filled", "text filled by none", "text R 1", "text R 2", "law 1", "lawful", "checked"];
    (refusals([2, 5, 11, 14], &kinds), 1)
}

const STEPS: u64 = 1_000;
const LINES: &[&str] = &["", "P,0,0,0\n", "T,0,1,2\n", "E,0,1\n", "K,0,1,2\n", "Q,0,1,2,3,5\n", "\n", " ", "\0"];

/// No list, case B's list, or its first entry, by the digits of a number to the base 3.
fn job_of(mut pattern: usize) -> Made {
    let mut made = Made {
        points: vec![0, 0, 0, 6, 0, 0, 0, 6, 0, 1, 1, 5, 1, 1, -5],
        triangles: vec![0, 1, 3, 1, 2, 3, 2, 0, 3, 1, 0, 4, 2, 1, 4, 0, 2, 4],
        kept: vec![0, 1],
        inner: vec![0, 1, 3],
        table: vec![500000, 400000, 450000, 450000, 460000],
        filling: Vec::new(),
    };
    let mut cut = |len: usize| {
        let kind = pattern % 3;
        pattern /= 3;
        [0, len, 1][kind]
    };
    made.points.truncate(cut(15));
    made.triangles.truncate(cut(18));
    made.kept.truncate(cut(2));
    made.inner.truncate(cut(3));
    made.table.truncate(cut(5));
    made
}

fn searched(tally: &mut Tally, rooms: &mut Rooms, room: &mut Room, made: &Made) {
    for len in [0, 1, 7279, 7280, 7281] {
        let pattern: Vec<u8> = (0..len).map(|i| i as u8 ^ 0x5a).collect();
        let job = job::check(&made.lists()).map(|job| {
            let best = best_by_faces(&job, STEPS).expect("few steps");
            (job, best)
        });
        let expected = expected(&job, pattern.clone());
        let kind = match expected.0 {
            [0, 0, _] => "filled by none".to_string(),
            [0, ..] => "filled".to_string(),
            [number, ..] => refusal(number),
        };
        let got = [calls::search, safely].map(|search| {
            let buffer = room.lend(&pattern);
            (search(&rooms.lend(made), buffer), buffer.to_vec())
        });
        tally.compare(kind, &[expected.clone(), expected], &got, || made.told());
    }
}

fn judged(tally: &mut Tally, rooms: &mut Rooms, made: &Made) {
    let job = job::check(&made.lists());
    let number = job.as_ref().map_or_else(|number| *number, |_| 0);
    let lent = rooms.lend(made);
    let safely = cottontuff::check(&lent).map_or_else(|number| number.0, |()| 0);
    tally.compare("checked".to_string(), &[number; 2], &[calls::check(&lent), safely], || made.told());
    for list in [&[][..], &[0], &[0, 1, 2, 3], &[255; 4], &[0, 1, 2, 3, 0, 1, 2, 4]] {
        let (kind, expected) = judge::expected(&job, list);
        let got = (calls::judge(&lent, list), cottontuff::judge(&lent, list));
        tally.compare(kind, &expected, &got, || format!("{list:?} on {}", made.told()));
    }
}

fn texts(tally: &mut Tally) {
    for (one, two) in LINES.iter().flat_map(|one| LINES.iter().map(move |two| (one, two))) {
        let text = format!("{one}{two}");
        let expected = print(text.as_bytes(), STEPS).expect("few steps");
        let kind = match expected.strip_prefix("R,") {
            Some(number) => format!("text R{:>2}", number.trim_end()),
            None => "text filled by none".to_string(),
        };
        tally.compare(kind, &expected.into_bytes(), &cottontuff::print(text.as_bytes()), || text.clone());
    }
}

fn run(part: &Part) -> Tally {
    let mut tally = Tally::default();
    let (mut rooms, mut room) = (Rooms::new(), Room::new(16_384));
    for pattern in part.seeds(3u64.pow(5)) {
        let made = job_of(pattern as usize);
        judged(&mut tally, &mut rooms, &made);
        searched(&mut tally, &mut rooms, &mut room, &made);
    }
    if part.number == 0 {
        texts(&mut tally);
    }
    tally
}
