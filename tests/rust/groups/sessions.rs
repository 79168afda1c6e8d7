//! Stored sessions of the bench, where a folder of them is given: bench/NAME.txt, and meshes/NAME with .mesh, .script and .after. Library and
//! reference both go through them; number and value are compared with the stored ones as well.
use super::bench::{arrays, shown, step, Operation};
use super::stored::{decimals, files};
use super::{Group, Part};
use crate::reference::bench::{Bench, Cavity};
use crate::tally::Tally;
use cottontuff::c;
use std::fs;
use std::path::{Path, PathBuf};

pub const GROUP: Group = Group { name: "stored sessions", run, wanted };

fn wanted(part: &Part) -> (Vec<String>, u64) {
    let some = part.folders.iter().any(|folder| folder.join("bench").is_dir() || folder.join("meshes").is_dir());
    (if some { vec!["stored number".to_string()] } else { Vec::new() }, 1)
}

/// The list behind `key=` in a line.
fn list<'a>(line: &'a str, key: &str) -> &'a str {
    line.split(' ').find_map(|field| field.strip_prefix(key)?.strip_prefix('=')).unwrap_or("")
}

/// The value that a line tells; none where the arrays cannot hold it.
fn value(line: &str) -> Option<Bench> {
    let (points, tets) = (decimals::<i32>(list(line, "points")), decimals::<usize>(list(line, "tets")));
    let qualities = decimals::<u32>(list(line, "quals"));
    let cavity = Cavity {
        tets: decimals::<usize>(list(line, "C")).into_iter().collect(),
        points: decimals::<usize>(list(line, "P")).into_iter().collect(),
    };
    let fits = points.len() % 3 == 0 && points.len() <= 192 && tets.len() % 4 == 0 && tets.len() <= 1024;
    let held = cavity.tets.iter().all(|i| *i < 256) && cavity.points.iter().all(|p| *p < 64);
    (fits && held && qualities.len() == tets.len() / 4).then(|| Bench {
        points,
        tets: tets.chunks(4).map(|t| [t[0], t[1], t[2], t[3]]).collect(),
        qualities,
        cavity: (list(line, "C") != "-").then_some(cavity),
        count: list(line, "count").parse().unwrap_or(0),
    })
}

fn operation(line: &str) -> Option<Operation> {
    match line.split(' ').next()? {
        "load" => Some(Operation::Load(decimals(list(line, "points")), decimals(list(line, "tets")))),
        "open" => Some(Operation::Open(line.split(' ').nth(1)?.parse().ok()?)),
        "grow" => Some(Operation::Grow),
        "replace" => Some(Operation::Replace),
        "close" => Some(Operation::Close),
        _ => None,
    }
}

/// The stored session, or the one with new answers where a later request changed some: slip-05/changed/bench-NAME.txt.
fn in_force(folder: &Path, path: &Path) -> PathBuf {
    let name = path.file_name().unwrap_or_default().to_string_lossy().into_owned();
    let changed = folder.join("slip-05/changed").join(format!("bench-{name}"));
    if changed.exists() { changed } else { path.to_path_buf() }
}

fn told(tally: &mut Tally, path: &Path) {
    let mut raw = arrays(&Bench::default());
    let mut number = 0;
    for (at, line) in fs::read_to_string(path).unwrap_or_default().lines().enumerate() {
        let place = || format!("{} line {}", path.display(), at + 1);
        if let Some(operation) = operation(line) {
            (number, raw) = step(tally, &raw, &operation);
        } else if line.starts_with("fresh") {
            raw = arrays(&Bench::default());
        } else if line.starts_with("set ") {
            let Some(value) = value(line) else { return tally.count("left out: no such arrays") };
            raw = arrays(&value);
        } else if let Some(count) = line.strip_prefix("setcount ") {
            raw.count = count.parse().unwrap_or(0);
        } else if let Some(expected) = line.strip_prefix("= ") {
            tally.compare("stored number".to_string(), &expected, &number.to_string().as_str(), place);
        } else if line.starts_with("| ") {
            tally.compare("stored value".to_string(), &value(line), &Some(shown(&raw)), place);
        }
    }
}

/// The numbers of the lines of one letter.
fn lines<T: std::str::FromStr>(path: &Path, letter: &str) -> Vec<T> {
    let text = fs::read_to_string(path).unwrap_or_default();
    text.lines().filter_map(|line| line.strip_prefix(letter)).flat_map(decimals).collect()
}

fn script(tally: &mut Tally, path: &Path) {
    let mesh = path.with_extension("mesh");
    let load = Operation::Load(lines(&mesh, "P,"), lines(&mesh, "H,"));
    let mut raw: c::Bench = step(tally, &arrays(&Bench::default()), &load).1;
    for (at, line) in fs::read_to_string(path).unwrap_or_default().lines().enumerate() {
        let numbers: Vec<u32> = decimals(line);
        let operation = match line.split(',').next() {
            Some("O") => Operation::Open(numbers[0]),
            Some("G") => Operation::Grow,
            Some("R") => Operation::Replace,
            _ => Operation::Close,
        };
        let number;
        (number, raw) = step(tally, &raw, &operation);
        let place = || format!("{} line {}", path.display(), at + 1);
        tally.compare("stored number".to_string(), &numbers.last(), &Some(&number), place);
    }
    let after = path.with_extension("after");
    let tets: Vec<usize> = shown(&raw).tets.into_iter().flatten().collect();
    tally.compare("stored mesh".to_string(), &lines(&after, "H,"), &tets, || path.display().to_string());
}

fn run(part: &Part) -> Tally {
    let mut tally = Tally::default();
    for folder in &part.folders {
        let paths: Vec<PathBuf> = [files(&folder.join("bench")), files(&folder.join("meshes"))].concat();
        for path in paths.iter().skip(part.number as usize).step_by(part.of as usize) {
            match path.extension().and_then(|e| e.to_str()) {
                Some("txt") => told(&mut tally, &in_force(folder, path)),
                Some("script") => script(&mut tally, path),
                _ => {}
            }
        }
    }
    tally
}
