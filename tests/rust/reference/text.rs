//! A job's text and its printout.
use super::job::{check, fours, Four, Job, Lists};
use super::laws::faces;
use super::search::{best_by_faces, Best};
use std::collections::BTreeMap;

/// A number as the text has it: 1 to 7 digits, no leading zeros, a minus only where it may stand and the number is not zero.
fn number(field: &str, minus: bool) -> Option<i32> {
    let digits = field.strip_prefix('-').unwrap_or(field);
    let plain = (1..=7).contains(&digits.len()) && digits.bytes().all(|b| b.is_ascii_digit());
    if !plain || (digits.len() > 1 && digits.starts_with('0')) {
        return None;
    }
    let signed = digits.len() < field.len();
    if signed && (!minus || digits == "0") {
        return None;
    }
    field.parse().ok()
}

/// The kind of a line, by its place in the order of kinds, and its numbers.
fn line(line: &str) -> Option<(usize, Vec<i32>)> {
    let mut fields = line.split(',');
    let letter = fields.next()?;
    let kind = ["P", "T", "E", "K", "Q"].iter().position(|l| *l == letter)?;
    let numbers: Vec<i32> = fields.map(|f| number(f, kind == 0)).collect::<Option<_>>()?;
    let rising = |n: &[i32]| n.windows(2).all(|two| two[0] < two[1]);
    let right = numbers.len() == [3, 3, 2, 3, 5][kind] && (kind < 4 || rising(&numbers[..4]));
    right.then_some((kind, numbers))
}

/// The entries in order, −1 for a four without Q; none where a Q stands for an absent four or a second one for the same.
fn table(count: usize, entries: &[Vec<i32>]) -> Option<Vec<i32>> {
    let mut table: BTreeMap<Four, i32> = fours(count).into_iter().map(|f| (f, -1)).collect();
    let mut seen = std::collections::BTreeSet::new();
    for q in entries {
        let four = [q[0], q[1], q[2], q[3]].map(|p| p as usize);
        let place = table.get_mut(&four)?;
        if !seen.insert(four) {
            return None;
        }
        *place = q[4];
    }
    Some(table.into_values().collect())
}

/// The lists that a text says; none where it is too long or not of the form.
pub fn read(text: &[u8]) -> Option<Lists> {
    let text = std::str::from_utf8(text).ok().filter(|t| t.len() <= 65_536)?;
    let lines: Vec<(usize, Vec<i32>)> = match text.strip_suffix('\n') {
        Some(body) => body.split('\n').map(line).collect::<Option<_>>()?,
        None if text.is_empty() => Vec::new(),
        None => return None,
    };
    if lines.windows(2).any(|two| two[0].0 > two[1].0) {
        return None;
    }
    let of_kind = |kind: usize| lines.iter().filter(move |l| l.0 == kind).flat_map(|l| l.1.iter().copied());
    let unsigned = |kind: usize| of_kind(kind).map(|n| n as usize).collect();
    let points: Vec<i32> = of_kind(0).collect();
    let entries: Vec<Vec<i32>> = lines.iter().filter(|l| l.0 == 4).map(|l| l.1.clone()).collect();
    let count = points.len() / 3;
    // Beyond 16 points the job is refused before its table is looked at. Where a Q is bad the table has a length that is wrong for every count of points, also for none.
    let table = if count <= 16 { table(count, &entries).unwrap_or(vec![-1; 2]) } else { Vec::new() };
    Some(Lists { points, triangles: unsigned(1), kept: unsigned(2), inner: unsigned(3), table })
}

fn refusal(number: u32) -> String {
    format!("R,{number}\n")
}

fn printout(job: &Job, best: &Best) -> String {
    let Some((worst, list)) = best else { return refusal(15) };
    let mut out = format!("F,{},{}\n", list.len(), worst);
    for f in list {
        let boundary = faces(&job.points, *f).iter().filter(|t| job.triangles.contains(*t)).count();
        out += &format!("H,{},{},{},{},{},{}\n", f[0], f[1], f[2], f[3], job.quality[f], boundary);
    }
    out
}

/// What the program prints for a text; none where the steps do not suffice for its search.
pub fn print(text: &[u8], steps: u64) -> Option<String> {
    let Some(lists) = read(text) else { return Some(refusal(1)) };
    match check(&lists) {
        Err(number) => Some(refusal(number)),
        Ok(job) => best_by_faces(&job, steps).map(|best| printout(&job, &best)),
    }
}
