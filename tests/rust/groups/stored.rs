//! Stored answers, where a folder of them is given: NAME.txt with NAME.out, judge/cases.txt, measure/cases.txt; in a folder slip-NN judge.txt,
//! judge-lists.txt, lists.txt, trials.txt and why.txt, or cases.txt and rows.txt of rings. Library and reference both answer them, the reference where it ends soon.
use super::explain;
use super::limited;
use super::removal;
use super::search::{expected as answered, safely};
use super::{Group, Part};
use crate::calls;
use crate::jobs::Made;
use crate::reference::job::{self, Lists};
use crate::reference::measure::{measure, Measurement};
use crate::reference::reasons::{self, Fillings};
use crate::reference::rings::{self, Ring};
use crate::reference::search::best_by_faces;
use crate::reference::text::{print, read};
use crate::tally::Tally;
use cottontuff::{Job, Judgement, Measured};
use std::fs;
use std::path::{Path, PathBuf};

pub const GROUP: Group = Group { name: "stored", run, wanted };

fn wanted(part: &Part) -> (Vec<String>, u64) {
    (if part.folders.is_empty() { Vec::new() } else { vec!["printout".to_string()] }, 1)
}

const STEPS: u64 = 1_000;
/// Rows of reasons are few.
const REASON_STEPS: u64 = 50_000;
/// The reference is asked for answers of no more trials.
const TRIALS: u32 = 2_000;

/// The files below a folder, in the order of their names; folders slip-NN in it are left out, since the form in force there may be another.
pub fn files(folder: &Path) -> Vec<PathBuf> {
    let mut entries: Vec<PathBuf> = fs::read_dir(folder).into_iter().flatten().flatten().map(|e| e.path()).collect();
    entries.sort();
    let of_slip = |path: &Path| path.file_name().is_some_and(|name| name.to_string_lossy().starts_with("slip-"));
    entries
        .into_iter()
        .filter(|path| !of_slip(path))
        .flat_map(|path| if path.is_dir() { files(&path) } else { vec![path] })
        .collect()
}

/// The printout that is stored for a job. Where a later request changed it the new one is taken, from slip-05/changed beside the job's folder, or tests/changed.
fn stored_printout(job: &Path) -> Option<Vec<u8>> {
    let stored = job.with_extension("out");
    let name = stored.file_name()?;
    let beside = job.parent()?.join("../slip-05/changed").join(name);
    let before = fs::read(&stored).ok()?;
    Some(fs::read(beside).or_else(|_| fs::read(Path::new("tests/changed").join(name))).unwrap_or(before))
}

fn printouts(tally: &mut Tally, part: &Part, folder: &Path) {
    let jobs: Vec<PathBuf> = files(folder).into_iter().filter(|p| p.extension().is_some_and(|e| e == "txt")).collect();
    for path in jobs.iter().skip(part.number as usize).step_by(part.of as usize) {
        let (Ok(text), Some(expected)) = (fs::read(path), stored_printout(path)) else { continue };
        let told = || path.display().to_string();
        tally.compare("printout".to_string(), &expected, &cottontuff::print(&text), told);
        match print(&text, STEPS) {
            Some(printout) => tally.compare("printout, listed".to_string(), &expected, &printout.into_bytes(), told),
            None => tally.count("given up"),
        }
    }
}

/// The fields of each line of a file of cases.
fn cases(path: PathBuf) -> Vec<Vec<String>> {
    let text = fs::read_to_string(path).unwrap_or_default();
    text.lines().map(|line| line.split(';').map(String::from).collect()).collect()
}

/// The numbers of a list parted by commas; what is none is passed over.
pub fn decimals<T: std::str::FromStr>(list: &str) -> Vec<T> {
    list.split(',').filter_map(|n| n.parse().ok()).collect()
}

/// What library and reference say of a list, W,worst or L,law or R,number.
fn judged(tally: &mut Tally, job: &Job, lists: &Lists, case: &[String], list: &str, result: &String) {
    let list = decimals::<u8>(list);
    let got = match cottontuff::judge(job, &list) {
        Ok(Judgement::Lawful(worst)) => format!("W,{worst}"),
        Ok(Judgement::Breaks(law)) => format!("L,{law}"),
        Err(number) => format!("R,{}", number.0),
    };
    tally.compare("judged".to_string(), result, &got, || case.join(";"));
    let numbers: Vec<usize> = list.iter().map(|b| usize::from(*b)).collect();
    let listed = match job::check(lists).map(|job| job.judge(&numbers)) {
        Ok(Ok(worst)) => format!("W,{worst}"),
        Ok(Err(law)) => format!("L,{law}"),
        Err(number) => format!("R,{number}"),
    };
    tally.compare("judged by the reference".to_string(), result, &listed, || case.join(";"));
}

/// The lists of a job's text, and the same with bytes.
fn stored_job(folder: &Path, name: &str) -> (Lists, Made) {
    let text = fs::read(folder.join(format!("{name}.txt"))).unwrap_or_default();
    let lists = read(&text).unwrap_or_default();
    let bytes = |numbers: &[usize]| numbers.iter().map(|n| *n as u8).collect::<Vec<u8>>();
    let [triangles, kept, inner] = [&lists.triangles, &lists.kept, &lists.inner].map(|numbers| bytes(numbers));
    let (points, table) = (lists.points.clone(), lists.table.clone());
    (lists, Made { points, triangles, kept, inner, table, filling: Vec::new() })
}

/// Lines JOB;LIST;RESULT.
fn judge_cases(tally: &mut Tally, lines: PathBuf, jobs: &Path) {
    for case in cases(lines) {
        let (lists, made) = stored_job(jobs, &case[0]);
        judged(tally, &made.job(), &lists, &case, &case[1], &case[2]);
    }
}

/// KIND,TRIALS,COUNT,WORST and the list: F a filling, R none exists, S spent, Rn refused with n.
fn limited_answer(fields: &str, list: &str) -> limited::Answer {
    let (kind, rest) = fields.split_once(',').unwrap_or_default();
    let numbers: Vec<u32> = decimals(rest);
    let number = match kind {
        "F" | "S" => 0,
        "R" => 15,
        _ => kind[1..].parse().unwrap_or(0),
    };
    let mut buffer: Vec<u8> = decimals(&list.replace(' ', ","));
    buffer.resize(7280, 0);
    ([number, u32::from(kind == "S"), numbers[1], numbers[2], numbers[0]], buffer)
}

/// Lines JOB;LIMIT;KIND,TRIALS,COUNT,WORST;LIST: a limit, and what the limited search answers.
fn trial_cases(tally: &mut Tally, part: &Part, folder: &Path) {
    for case in cases(folder.join("trials.txt")).iter().skip(part.number as usize).step_by(part.of as usize) {
        let (lists, made) = stored_job(folder, &case[0]);
        let limit: u32 = case[1].parse().unwrap_or(0);
        let expected = limited_answer(&case[2], &case[3]);
        let got = cottontuff::search_limited(&made.job(), limit);
        tally.compare("limited".to_string(), &limited::safely(&expected), &got, || case.join(";"));
        if expected.0[4] <= TRIALS {
            let got = limited::expected(&job::check(&lists), limit, vec![0; 7280]);
            tally.compare("limited, by the reference".to_string(), &expected, &got, || case.join(";"));
        }
    }
}

/// W,reason,value or R,number.
fn explained(fields: &str) -> [u32; 3] {
    let (letter, rest) = fields.split_once(',').unwrap_or_default();
    match decimals(rest)[..] {
        [reason, value] if letter == "W" => [0, reason, value],
        [number] if letter == "R" => [number, 0, 0],
        _ => [u32::MAX; 3],
    }
}

/// What the reference says, where it ends soon.
fn explained_by_faces(lists: &Lists, four: [u32; 4]) -> Option<[u32; 3]> {
    match job::check(lists) {
        Err(number) => Some([number, 0, 0]),
        Ok(job) => reasons::explain(&job, &best_by_faces(&job, REASON_STEPS)?, four, &Fillings::ByFaces(REASON_STEPS)),
    }
}

/// Lines JOB;a,b,c,d;RESULT: why a four is not in the answer.
fn why_cases(tally: &mut Tally, part: &Part, folder: &Path) {
    for case in cases(folder.join("why.txt")).iter().skip(part.number as usize).step_by(part.of as usize) {
        let (lists, made) = stored_job(folder, &case[0]);
        let four: [u32; 4] = decimals(&case[1]).try_into().unwrap_or_default();
        let expected = explained(&case[2]);
        let got = cottontuff::explain(&made.job(), four);
        tally.compare("explained".to_string(), &explain::safely(expected), &got, || case.join(";"));
        match explained_by_faces(&lists, four) {
            Some(got) => tally.compare("explained by the reference".to_string(), &expected, &got, || case.join(";")),
            None => tally.count("given up"),
        }
    }
}

/// A list in which v*n is n times v.
fn repeated<T: std::str::FromStr + Clone>(list: &str) -> Vec<T> {
    let times = |part: &str| match part.split_once('*') {
        Some((value, times)) => vec![value; times.parse().unwrap_or(0)].join(","),
        None => part.to_string(),
    };
    decimals(&list.split(',').map(times).collect::<Vec<String>>().join(","))
}

/// R,number or F,count,worst and the list, at the start of a buffer.
fn removed(fields: &str, buffer: &[u8]) -> removal::Answer {
    let (letter, rest) = fields.split_once(',').unwrap_or_default();
    match (letter, &decimals::<u32>(rest)[..]) {
        ("F", [count, worst, list @ ..]) => {
            let list: Vec<u8> = list.iter().map(|p| *p as u8).collect();
            ([0, *count, *worst], [&list[..], &buffer[list.len()..]].concat())
        }
        ("R", [number]) => ([*number, 0, 0], buffer.to_vec()),
        _ => ([u32::MAX; 3], buffer.to_vec()),
    }
}

/// Lines NAME;POINTS;A;B;RING;TABLE;BUFFER;RESULT;LATER: an edge removed. Beside them rows.txt, which tells such cases from others: lines SIZE;a,b,c d,e,f ..
fn ring_cases(tally: &mut Tally, folder: &Path) {
    let stored = cases(folder.join("rows.txt"));
    for size in 3..=if stored.is_empty() { 0 } else { 7 } {
        let of_size = stored.iter().filter(|row| row[0] == size.to_string());
        let expected: Vec<Vec<usize>> = of_size.map(|row| decimals(&row[1].replace(' ', ","))).collect();
        let got: Vec<Vec<usize>> = rings::rows(size).iter().map(|row| row.concat()).collect();
        tally.compare("rows of the reference".to_string(), &expected, &got, || format!("a ring of {size}"));
    }
    for case in cases(folder.join("cases.txt")).iter().filter(|_| !stored.is_empty()) {
        let ends = [2, 3].map(|at| case[at].parse().unwrap_or(0));
        let ring = Ring { points: repeated(&case[1]), ends, ring: repeated(&case[4]), table: repeated(&case[5]) };
        let buffer: Vec<u8> = (0..case[6].parse().unwrap_or(0)).map(|i: usize| i as u8 ^ 0x5a).collect();
        let expected = removed(&case[7], &buffer);
        let listed = removal::expected(&rings::remove_edge(&ring, buffer.len()), buffer.clone());
        tally.compare("removed by the reference".to_string(), &expected, &listed, || case.join(";"));
        let mut answer = buffer;
        let got = calls::remove_edge(&ring.points, ring.ends, &ring.ring, &ring.table, &mut answer);
        tally.compare("removed".to_string(), &expected, &(got, answer), || case.join(";"));
    }
}

/// The job of a line that begins P;T;E;K;Q.
fn made_of(case: &[String]) -> Made {
    let [triangles, kept, inner] = [1, 2, 3].map(|at| decimals(&case[at]));
    Made { points: decimals(&case[0]), triangles, kept, inner, table: decimals(&case[4]), filling: Vec::new() }
}

/// Lines P;T;E;K;Q;LIST;RESULT.
fn judge_list_cases(tally: &mut Tally, folder: &Path) {
    for case in cases(folder.join("judge-lists.txt")) {
        let made = made_of(&case);
        judged(tally, &made.job(), &made.lists(), &case, &case[5], &case[6]);
    }
}

/// Lines P;T;E;K;Q;BUFFER;NUMBER,COUNT,WORST;LIST: a job's lists, the length of the buffer, and what the search answers.
fn list_cases(tally: &mut Tally, folder: &Path) {
    for case in cases(folder.join("lists.txt")) {
        let made = made_of(&case);
        let pattern: Vec<u8> = (0..case[5].parse().unwrap_or(0)).map(|i: usize| i as u8 ^ 0x5a).collect();
        let (found, list): (Vec<u32>, Vec<u8>) = (decimals(&case[6]), decimals(&case[7].replace(' ', ",")));
        let expected = (found, [&list[..], &pattern[list.len()..]].concat());
        let mut answer = pattern.clone();
        let got = (safely(&made.job(), &mut answer).to_vec(), answer);
        tally.compare("searched".to_string(), &expected, &got, || case.join(";"));
        let job = job::check(&made.lists()).map(|job| {
            let best = best_by_faces(&job, STEPS);
            (job, best)
        });
        match job {
            Ok((_, None)) => tally.count("given up"),
            Ok((job, Some(best))) => {
                let got = answered(&Ok((job, best)), pattern);
                tally.compare("searched by the reference".to_string(), &expected, &(got.0.to_vec(), got.1), || {
                    case.join(";")
                });
            }
            Err(number) => {
                tally.compare("searched by the reference".to_string(), &expected.0, &vec![number, 0, 0], || {
                    case.join(";")
                })
            }
        }
    }
}

fn told(m: Measurement) -> Vec<String> {
    match m {
        Measurement::Refused(number) => vec!["R".to_string(), number.to_string()],
        Measurement::Flat { s } => vec!["FLAT".to_string(), s.to_string()],
        Measurement::Shape { d, s, shape, millionths } => {
            let bits = format!("{:016x}", shape.to_bits());
            vec!["SHAPE".to_string(), d.to_string(), s.to_string(), bits, millionths.to_string()]
        }
    }
}

/// Lines COORDINATES;RESULT; where a later request changed a result, the line with the new one stands in slip-05/changed.
fn measure_cases(tally: &mut Tally, folder: &Path) {
    let changed = cases(folder.join("slip-05/changed/measure.txt"));
    for case in cases(folder.join("measure/cases.txt")) {
        let case = changed.iter().find(|new| new[0] == case[0]).unwrap_or(&case);
        let list: Vec<i32> = decimals(&case[0]);
        let mut expected: Vec<String> = case[1].split(',').map(String::from).collect();
        if expected.len() == 6 {
            expected.remove(3);
        }
        let got = match cottontuff::measure(&list) {
            Err(number) => Measurement::Refused(number.0),
            Ok(Measured::Flat { s }) => Measurement::Flat { s },
            Ok(Measured::Shape { d, s, shape, millionths }) => Measurement::Shape { d, s, shape, millionths },
        };
        tally.compare("measured".to_string(), &expected, &told(got), || case.join(";"));
        tally.compare("measured by the reference".to_string(), &expected, &told(measure(&list)), || case.join(";"));
    }
}

fn run(part: &Part) -> Tally {
    let mut tally = Tally::default();
    for folder in &part.folders {
        printouts(&mut tally, part, folder);
        trial_cases(&mut tally, part, folder);
        why_cases(&mut tally, part, folder);
        if part.number == 0 {
            judge_cases(&mut tally, folder.join("judge/cases.txt"), &folder.join("small"));
            judge_cases(&mut tally, folder.join("judge.txt"), folder);
            judge_list_cases(&mut tally, folder);
            list_cases(&mut tally, folder);
            ring_cases(&mut tally, folder);
            measure_cases(&mut tally, folder);
        }
    }
    tally
}
