//! Texts and printouts: jobs of every kind as text, cut, changed byte by byte, noise, at and over the limit of length; buffers too short.
use super::check::any_job;
use super::{refusals, Group, Part};
use crate::calls;
use crate::jobs::{sound, Made};
use crate::lent::Room;
use crate::random::Random;
use crate::reference::text::print;
use crate::tally::Tally;

pub const GROUP: Group = Group { name: "text", run, wanted };

fn wanted(_: &Part) -> (Vec<String>, u64) {
    (refusals((1..=13).chain([15, 22, 23]), &["filled", "short buffer"]), 20)
}

pub const STEPS: u64 = 20_000;
const PRINTOUT: usize = 43_695;
/// Bytes that matter in a text, and some that never do.
const BYTES: &[u8] = b"\n,-0123456789PTEKQFHRpq +.\r\t\0\x7f\x80\xff";

const CASE_B: &[u8] =
    b"P,0,0,0\nP,6,0,0\nP,0,6,0\nP,1,1,5\nP,1,1,-5\nT,0,1,3\nT,1,2,3\nT,2,0,3\nT,1,0,4\nT,2,1,4\nT,0,2,4\nE,3,4\nK,0,3,4\n\
    Q,0,1,2,3,500000\nQ,0,1,2,4,400000\nQ,0,1,3,4,450000\nQ,0,2,3,4,450000\nQ,1,2,3,4,460000\n";

/// One change: a byte set, left out or put in, a cut, two lines exchanged, a line twice, a longer number.
fn changed(random: &mut Random, mut text: Vec<u8>) -> Vec<u8> {
    let at = random.below(text.len().max(1));
    let byte = random.any(BYTES);
    let mut lines: Vec<Vec<u8>> = text.split_inclusive(|b| *b == b'\n').map(<[u8]>::to_vec).collect();
    let (one, other) = (random.below(lines.len().max(1)), random.below(lines.len().max(1)));
    match random.below(9) {
        0 | 1 if !text.is_empty() => text[at] = byte,
        2 if !text.is_empty() => drop(text.remove(at)),
        3 => text.insert(at, byte),
        4 => text.truncate(at),
        5 if !lines.is_empty() => {
            lines.swap(one, other);
            text = lines.concat();
        }
        6 if !lines.is_empty() => {
            lines.insert(one, lines[one].clone());
            text = lines.concat();
        }
        7 if !lines.is_empty() => {
            lines.remove(one);
            text = lines.concat();
        }
        8 => text
            .splice(at..at, random.any(&[&b"00"[..], b"256", b"65536", b"9999999", b"-1", b"\n\n"]).to_vec())
            .for_each(drop),
        _ => {}
    }
    text
}

/// Texts of the form, or nearly, that are as long as may be or longer: lines of one kind, and a byte more or less.
fn long(random: &mut Random) -> Vec<u8> {
    let line: &[u8] =
        random.any(&[&b"P,1,2,3\n"[..], b"T,0,1,2\n", b"E,0,1\n", b"K,0,1,2\n", b"Q,0,1,2,3,1\n", b"\n", b"Q,0,1,2,3,1"]);
    let len = random.any(&[65_535, 65_536, 65_536, 65_537, 65_544, 131_072]);
    let mut text = if random.one_in(2) { CASE_B[..CASE_B.len() - 17 * 5].to_vec() } else { Vec::new() };
    while text.len() + line.len() <= len {
        text.extend(line);
    }
    if random.one_in(2) {
        // To the byte: a longer number in the last line.
        let digits = vec![b'1'; (len - text.len()).min(6)];
        let end = text.len().saturating_sub(1);
        text.splice(end..end, digits);
    }
    text
}

/// A job with too many kept edges or inner triangles, or an entry too great.
fn over_a_limit(random: &mut Random) -> Made {
    let mut made = sound(random, 5);
    match random.below(3) {
        0 => made.kept = [0, 1].repeat(random.any(&[119, 120, 121, 122, 3000])),
        1 => made.inner = [0, 1, 2].repeat(random.any(&[559, 560, 561, 562, 3000])),
        _ => {
            made.table.iter_mut().for_each(|entry| *entry = random.any(&[1_000_000, 1_000_000, 1_000_001, 9_999_999]))
        }
    }
    made
}

/// Any text.
pub fn any_text(random: &mut Random) -> Vec<u8> {
    let mut text = match random.below(40) {
        0 => long(random),
        1 => {
            let count = random.below(300);
            (0..count).map(|_| random.any(BYTES)).collect()
        }
        2 => {
            let count = random.below(3000);
            random.bytes(count)
        }
        3..=13 => any_job(random, 6).text(),
        14 | 15 => over_a_limit(random).text(),
        _ => {
            let count = 4 + random.below(3);
            sound(random, count).text()
        }
    };
    for _ in 0..random.any(&[0, 0, 1, 1, 2]) {
        text = changed(random, text);
    }
    text
}

fn safely(text: &[u8], out: &mut [u8]) -> usize {
    cottontuff::print_into(text, out).unwrap_or(0)
}

/// Compares the printout and every byte of the buffer.
fn compare(tally: &mut Tally, rooms: &mut [Room; 2], text: &[u8], len: usize) {
    let Some(printout) = print(text, STEPS) else { return tally.count("given up") };
    let pattern: Vec<u8> = (0..len).map(|i| i as u8 ^ 0x5a).collect();
    let kind = match printout.strip_prefix("R,") {
        _ if len < PRINTOUT => "short buffer".to_string(),
        Some(number) => format!("R{:>2}", number.trim_end()),
        None => "filled".to_string(),
    };
    let mut expected = (0, pattern.clone());
    if len >= PRINTOUT {
        expected.0 = printout.len();
        expected.1[..printout.len()].copy_from_slice(printout.as_bytes());
    }
    let [text_room, out_room] = rooms;
    let got = [calls::print, safely].map(|print| {
        let out = out_room.lend(&pattern);
        (print(text_room.lend(text), out), out.to_vec())
    });
    // Told by what was printed, since a buffer is long.
    let told =
        || format!("{} printed {}", String::from_utf8_lossy(text), String::from_utf8_lossy(&got[0].1[..got[0].0]));
    tally.compare(kind, &true, &(got == [expected.clone(), expected.clone()]), told);
}

fn run(part: &Part) -> Tally {
    let mut tally = Tally::default();
    let mut rooms = [Room::new(200_000), Room::new(60_000)];
    for seed in part.seeds(12_000) {
        let mut random = Random::new(5_000_000 + seed);
        let text = any_text(&mut random);
        let len = random.any(&[0, 4, PRINTOUT - 1, PRINTOUT, PRINTOUT, PRINTOUT, PRINTOUT, PRINTOUT + 1, 50_000]);
        compare(&mut tally, &mut rooms, &text, len);
    }
    // Case B with a kept edge and an inner triangle: at every place each byte that matters set and put in, a byte left out, a cut.
    for at in part.seeds(CASE_B.len() as u64) {
        let at = at as usize;
        for byte in BYTES {
            compare(&mut tally, &mut rooms, &[&CASE_B[..at], &[*byte], &CASE_B[at + 1..]].concat(), PRINTOUT);
            compare(&mut tally, &mut rooms, &[&CASE_B[..at], &[*byte], &CASE_B[at..]].concat(), PRINTOUT);
        }
        compare(&mut tally, &mut rooms, &[&CASE_B[..at], &CASE_B[at + 1..]].concat(), PRINTOUT);
        compare(&mut tally, &mut rooms, &CASE_B[..at], PRINTOUT);
    }
    tally
}
