//! Cottontuff, the cavity kernel, for Rust: the functions of include/cottontuff.h behind safe ones. The field names and numbers are those of documents 01 and 02.
//!
//! `tools/build cottontuff_c` proves the library and writes target/staticlib/libcottontuff.a; then `rustc -L native=target/staticlib` links a crate that has this file as a module.
//! Every function takes any lists and answers: a filling, a verdict, a `Reason`, or a `Number`; `search_limited` also that its limit is spent. Nothing here panics on
//! an input, and a refusal changes no lent byte.
//! The searches, `explain`, the printout and `Bench::replace` want a thread with 768 KB of stack; threads of std have 2 MB.
//!
//! ```
//! use cottontuff::{search, Job, Number};
//!
//! let job = Job {
//!     points: &[0, 0, 0, 6, 0, 0, 0, 6, 0, 1, 1, 5, 1, 1, -5],
//!     triangles: &[0, 1, 3, 1, 2, 3, 2, 0, 3, 1, 0, 4, 2, 1, 4, 0, 2, 4],
//!     table: &[500000, 400000, 450000, 450000, 460000],
//!     ..Job::default() // no kept edges, no inner triangles
//! };
//! let filling = search(&job)?;
//! assert_eq!(filling.fours, [[0, 1, 3, 4], [0, 2, 3, 4], [1, 2, 3, 4]]);
//! assert_eq!(filling.worst, 450000);
//! assert_eq!(search(&Job { table: &[500000, 0, 0, 450000, 460000], ..job }), Err(Number::NO_FILLING));
//! // With the triangle 0 1 2 inside as a face there are two, the worse of 400000.
//! assert_eq!(search(&Job { inner: &[0, 1, 2], ..job })?.worst, 400000);
//! // Nothing at all is a job too: the empty list fills it.
//! let filling = search(&Job::default())?;
//! assert_eq!((filling.fours.len(), filling.worst), (0, 1_000_000));
//! # Ok::<(), Number>(())
//! ```
#![allow(dead_code)]

use std::fmt;

/// Bytes of an answer buffer that is never too short: four for each of the 1,820 fours of 16 points.
pub const ANSWER_BYTES: usize = 7280;
/// Bytes of the longest printout: 15 for the F line, 24 for each of 1,820 H lines.
pub const PRINTOUT_BYTES: usize = 43695;

/// The C functions as they stand. A list is a pointer and its count of elements; of a list of none the pointer is not read.
pub mod c {
    /// `number`: 0, or 2 to 13, 22 or 23, and then the rest is 0. `law`: 0, or the lowest law broken. `worst`: where no law is broken.
    #[repr(C)]
    #[derive(Clone, Copy, Debug, PartialEq, Eq)]
    pub struct Verdict {
        pub number: u32,
        pub law: u32,
        pub worst: u32,
    }

    /// `number`: 0, or 2 to 15, 22 or 23, and then the rest is 0; of `cottontuff_remove_edge` 0, or 25, 2, 3, 4, 11 to 14 or 26. `count`: tetrahedra of the
    /// filling, 0 for the empty job. `worst`: their least quality, 1,000,000 where there are none.
    #[repr(C)]
    #[derive(Clone, Copy, Debug, PartialEq, Eq)]
    pub struct Found {
        pub number: u32,
        pub count: u32,
        pub worst: u32,
    }

    /// `number`: 0; or 15, with the `trials` made; or 2 to 14, 22 or 23, and then the rest is 0. `spent`: 1 where the limit stopped it, else 0. `count` and
    /// `worst`: of the filling, 0 where there is none; for the empty job 0 and 1,000,000.
    #[repr(C)]
    #[derive(Clone, Copy, Debug, PartialEq, Eq)]
    pub struct Limited {
        pub number: u32,
        pub spent: u32,
        pub count: u32,
        pub worst: u32,
        pub trials: u32,
    }

    /// `number`: 0, or 2 to 13, 15, 22, 23 or 24, and then the rest is 0. `reason`: 1 to 7. `value`: with 4 the point, with 6 the quality, else 0.
    #[repr(C)]
    #[derive(Clone, Copy, Debug, PartialEq, Eq)]
    pub struct Explanation {
        pub number: u32,
        pub reason: u32,
        pub value: u32,
    }

    /// `number`: 0, or 3 or 16, and then the rest is 0. `flat`: 1 or 0; where it is 1, `d`, `shape` and `millionths` are 0.
    #[repr(C)]
    #[derive(Clone, Copy, Debug, PartialEq)]
    pub struct Measured {
        pub d: f64,
        pub s: f64,
        pub shape: f64,
        pub number: u32,
        pub flat: u32,
        pub millionths: u32,
    }

    pub use super::Bench;

    /// `number`: 0 and the bench afterwards, or why not and the bench as it was handed over.
    #[repr(C)]
    #[derive(Clone, Copy, Debug, PartialEq, Eq)]
    pub struct BenchAnswer {
        pub number: u32,
        pub bench: Bench,
    }

    #[link(name = "cottontuff", kind = "static")]
    unsafe extern "C" {
        pub fn cottontuff_check(
            points: *const i32,
            points_len: usize,
            triangles: *const u8,
            triangles_len: usize,
            kept: *const u8,
            kept_len: usize,
            table: *const i32,
            table_len: usize,
        ) -> u32;
        pub fn cottontuff_check_inner(
            points: *const i32,
            points_len: usize,
            triangles: *const u8,
            triangles_len: usize,
            kept: *const u8,
            kept_len: usize,
            inner: *const u8,
            inner_len: usize,
            table: *const i32,
            table_len: usize,
        ) -> u32;
        pub fn cottontuff_judge(
            points: *const i32,
            points_len: usize,
            triangles: *const u8,
            triangles_len: usize,
            kept: *const u8,
            kept_len: usize,
            table: *const i32,
            table_len: usize,
            list: *const u8,
            list_len: usize,
        ) -> Verdict;
        pub fn cottontuff_judge_inner(
            points: *const i32,
            points_len: usize,
            triangles: *const u8,
            triangles_len: usize,
            kept: *const u8,
            kept_len: usize,
            inner: *const u8,
            inner_len: usize,
            table: *const i32,
            table_len: usize,
            list: *const u8,
            list_len: usize,
        ) -> Verdict;
        pub fn cottontuff_search(
            points: *const i32,
            points_len: usize,
            triangles: *const u8,
            triangles_len: usize,
            kept: *const u8,
            kept_len: usize,
            table: *const i32,
            table_len: usize,
            answer: *mut u8,
            answer_len: usize,
        ) -> Found;
        pub fn cottontuff_search_inner(
            points: *const i32,
            points_len: usize,
            triangles: *const u8,
            triangles_len: usize,
            kept: *const u8,
            kept_len: usize,
            inner: *const u8,
            inner_len: usize,
            table: *const i32,
            table_len: usize,
            answer: *mut u8,
            answer_len: usize,
        ) -> Found;
        pub fn cottontuff_search_limited(
            points: *const i32,
            points_len: usize,
            triangles: *const u8,
            triangles_len: usize,
            kept: *const u8,
            kept_len: usize,
            inner: *const u8,
            inner_len: usize,
            table: *const i32,
            table_len: usize,
            limit: u32,
            answer: *mut u8,
            answer_len: usize,
        ) -> Limited;
        pub fn cottontuff_explain(
            points: *const i32,
            points_len: usize,
            triangles: *const u8,
            triangles_len: usize,
            kept: *const u8,
            kept_len: usize,
            inner: *const u8,
            inner_len: usize,
            table: *const i32,
            table_len: usize,
            a: u32,
            b: u32,
            c: u32,
            d: u32,
        ) -> Explanation;
        pub fn cottontuff_remove_edge(
            points: *const i32,
            points_len: usize,
            a: u32,
            b: u32,
            ring: *const u8,
            ring_len: usize,
            table: *const i32,
            table_len: usize,
            answer: *mut u8,
            answer_len: usize,
        ) -> Found;
        pub fn cottontuff_measure(coordinates: *const i32, coordinates_len: usize) -> Measured;
        pub fn cottontuff_measure_table(
            points: *const i32,
            points_len: usize,
            table: *mut i32,
            table_len: usize,
        ) -> u32;
        pub fn cottontuff_print(text: *const u8, text_len: usize, out: *mut u8, out_len: usize) -> usize;
    }

    unsafe extern "C" {
        pub fn cottontuff_bench_fresh() -> Bench;
        pub fn cottontuff_bench_load(
            bench: Bench,
            points: *const i32,
            points_len: usize,
            tets: *const u8,
            tets_len: usize,
        ) -> BenchAnswer;
        pub fn cottontuff_bench_open(bench: Bench, tet: u32) -> BenchAnswer;
        pub fn cottontuff_bench_grow(bench: Bench) -> BenchAnswer;
        pub fn cottontuff_bench_replace(bench: Bench) -> BenchAnswer;
        pub fn cottontuff_bench_close(bench: Bench) -> BenchAnswer;
    }
}

/// Why something is refused: the papers' number. It displays as their words. Of the numbers that apply the one whose place comes first is given;
/// the places of a job's numbers are 1 or 25; 2 to 10; 22; 23; 11; 12; 13; 14 or 24; 15 or 26. The order of this type is by size.
#[derive(Clone, Copy, Debug, PartialEq, Eq, PartialOrd, Ord, Hash)]
pub struct Number(pub u32);

/// A name and the papers' words for each number.
macro_rules! numbers {
    ($($name:ident = $value:literal, $words:literal;)*) => {
        impl Number {
            $(#[doc = $words] pub const $name: Number = Number($value);)*

            /// Every number, ascending.
            pub const ALL: &'static [Number] = &[$(Number::$name),*];

            /// The papers' words for this number; for a number that is not theirs, none.
            pub fn words(self) -> Option<&'static str> {
                match self {
                    $(Number::$name => Some($words),)*
                    _ => None,
                }
            }
        }
    };
}

numbers! {
    BAD_TEXT = 1, "text over 65,536 bytes or not of the form";
    POINT_COUNT = 2, "count of points outside its limits, or list length no multiple of 3";
    FAR_COORDINATE = 3, "coordinate outside its range";
    SAME_PLACE = 4, "two points in one place";
    TRIANGLE_COUNT = 5, "count of triangles outside its limits, or length no multiple of 3";
    BAD_TRIANGLE = 6, "triangle with an absent or repeated point";
    SAME_TRIANGLE = 7, "two triangles with the same three points";
    OPEN_BOUNDARY = 8, "a directed edge of the triangles stands more or less often than its reverse";
    KEPT_COUNT = 9, "over 120 kept edges, or odd length";
    BAD_KEPT = 10, "kept edge with an absent or repeated point";
    TABLE_LENGTH = 11, "table length wrong; in text, a Q for an absent four or a second Q for one";
    BAD_ENTRY = 12, "entry below −1 or above 1,000,000";
    UNMEASURED = 13, "solid four unmeasured";
    SHORT_BUFFER = 14, "answer buffer under 7,280 bytes";
    NO_FILLING = 15, "no lawful filling exists";
    NOT_TWELVE = 16, "measuring: not twelve coordinates";
    TET_COUNT = 17, "mesh: count of tetrahedra outside 1 to 256, or length no multiple of 4";
    BAD_TET = 18, "mesh: tetrahedron flat, or with an absent or repeated point";
    SHARED_FACE = 19, "mesh: an outward face belongs to two tetrahedra";
    NO_SUCH_TET = 20, "open: no such tetrahedron";
    INNER_COUNT = 22, "over 560 inner triangles, or length no multiple of 3";
    BAD_INNER = 23, "inner triangle with an absent or repeated point";
    BAD_FOUR = 24, "explain: the four is not increasing or names an absent point";
    BAD_RING = 25, "remove an edge: the ring is not 3 to 7 points, or ring and ends repeat a point or are not exactly the points";
    NO_ROW = 26, "remove an edge: no row gives a lawful list";
    NO_MESH = 31, "open, grow, replace, close: no mesh loaded";
    CAVITY_OPEN = 32, "load, open: a cavity is open";
    NO_CAVITY = 33, "grow, replace, close: none is open";
    CAVITY_FULL = 34, "grow: 16 points already";
    NOTHING_AROUND = 35, "grow: A is empty";
    NOT_BETTER = 36, "replace: no lawful filling has a worst quality above that of C";
    TOO_MANY_TETS = 37, "replace: over 256 tetrahedra would result";
    WOULD_SHARE_FACE = 38, "replace: an outward face would belong to two tetrahedra";
}

impl fmt::Display for Number {
    fn fmt(&self, f: &mut fmt::Formatter<'_>) -> fmt::Result {
        match self.words() {
            Some(words) => write!(f, "{}: {}", self.0, words),
            None => write!(f, "{}", self.0),
        }
    }
}

impl std::error::Error for Number {}

/// Nothing for 0, else the number as an error.
fn refused(number: u32) -> Result<(), Number> {
    if number == 0 {
        Ok(())
    } else {
        Err(Number(number))
    }
}

/// A cavity with its qualities. Any lists may stand here; the functions say what is wrong with them.
/// `Job::default()` has none: it is the empty job, whose one filling is the empty list, of worst quality 1,000,000.
#[derive(Clone, Copy, Debug, Default)]
pub struct Job<'a> {
    /// x, y, z of each point, each from -50,000 to 50,000.
    pub points: &'a [i32],
    /// Three point numbers for each boundary triangle, counter-clockwise seen from outside the cavity.
    pub triangles: &'a [u8],
    /// Two point numbers for each edge to be kept.
    pub kept: &'a [u8],
    /// Three point numbers for each triangle inside that must be a face, in one direction or the other.
    pub inner: &'a [u8],
    /// A quality in millionths for each four of points a < b < c < d in lexicographic order; 0 bars a four, -1 leaves it unmeasured.
    pub table: &'a [i32],
}

/// What the judge says of a list.
#[derive(Clone, Copy, Debug, PartialEq, Eq)]
pub enum Judgement {
    /// It keeps all the laws; its worst quality in millionths.
    Lawful(u32),
    /// The lowest law that it breaks, 1 to 8.
    Breaks(u32),
}

/// How many tetrahedra a filling has, and the least of their qualities, in millionths.
#[derive(Clone, Copy, Debug, PartialEq, Eq)]
pub struct Found {
    pub count: usize,
    pub worst: u32,
}

/// A lawful filling, each four with its numbers rising, and the least of their qualities, in millionths; for the empty job none and 1,000,000.
#[derive(Clone, Debug, PartialEq, Eq)]
pub struct Filling {
    pub fours: Vec<[u8; 4]>,
    pub worst: u32,
}

/// How a limited search ended.
#[derive(Clone, Copy, Debug, PartialEq, Eq)]
pub enum Ending {
    /// It came to its end: the filling is that of `search`, or there is none at all.
    Complete,
    /// It would have made more trials than the limit: the filling is the best of those made, and where there is none, none was found among them.
    Spent,
}

/// What a limited search found, and how many trials it made, at most the limit.
#[derive(Clone, Debug, PartialEq, Eq)]
pub struct Limited {
    pub ending: Ending,
    pub filling: Option<Filling>,
    pub trials: u32,
}

/// Why the answer of `search` does not have a four: of these the first that is true. Each is a fact about all lawful fillings of the job. It displays as a
/// sentence about the four.
#[derive(Clone, Copy, Debug, PartialEq, Eq)]
pub enum Reason {
    /// The answer has it.
    InAnswer,
    /// Its four points lie in one plane.
    Flat,
    /// Its entry in the table is 0.
    Barred,
    /// A point lies strictly inside it: the lowest such point.
    PointInside(u32),
    /// No lawful filling has it, for any other cause.
    NoFillingHoldsIt,
    /// Lawful fillings have it, each of a lower worst quality than the answer: the best of theirs, in millionths.
    Lower(u32),
    /// Lawful fillings that have it are as good as the answer, and each stands later in the order of lists.
    Later,
}

impl fmt::Display for Reason {
    fn fmt(&self, f: &mut fmt::Formatter<'_>) -> fmt::Result {
        match self {
            Reason::InAnswer => write!(f, "it is in the answer"),
            Reason::Flat => write!(f, "it is flat"),
            Reason::Barred => write!(f, "it is barred"),
            Reason::PointInside(point) => write!(f, "point {point} is strictly inside it"),
            Reason::NoFillingHoldsIt => write!(f, "no lawful filling holds it"),
            Reason::Lower(worst) => write!(f, "the best filling that holds it has a lower worst quality, {worst}"),
            Reason::Later => write!(f, "a filling that holds it is as good, but stands later in the order of lists"),
        }
    }
}

/// A measurement. `s` is the sum of the six squared edge lengths, at most 180,000,000,000, `d` the determinant, above 0 and at most 6,000,000,000,000,000; both are whole
/// numbers below 2^53, and without loss.
#[derive(Clone, Copy, Debug, PartialEq)]
pub enum Measured {
    Flat { s: f64 },
    Shape { d: f64, s: f64, shape: f64, millionths: u32 },
}

/// Whether a job can be searched, else 2 to 13, 22 or 23.
pub fn check(job: &Job) -> Result<(), Number> {
    let Job { points, triangles, kept, inner, table } = *job;
    // SAFETY: each pointer and length are those of a slice, which the function only reads.
    refused(unsafe {
        c::cottontuff_check_inner(
            points.as_ptr(),
            points.len(),
            triangles.as_ptr(),
            triangles.len(),
            kept.as_ptr(),
            kept.len(),
            inner.as_ptr(),
            inner.len(),
            table.as_ptr(),
            table.len(),
        )
    })
}

/// Judges a list of four point numbers for each tetrahedron; 2 to 13, 22 or 23 where the job is refused.
pub fn judge(job: &Job, list: &[u8]) -> Result<Judgement, Number> {
    let Job { points, triangles, kept, inner, table } = *job;
    // SAFETY: each pointer and length are those of a slice, which the function only reads.
    let verdict = unsafe {
        c::cottontuff_judge_inner(
            points.as_ptr(),
            points.len(),
            triangles.as_ptr(),
            triangles.len(),
            kept.as_ptr(),
            kept.len(),
            inner.as_ptr(),
            inner.len(),
            table.as_ptr(),
            table.len(),
            list.as_ptr(),
            list.len(),
        )
    };
    refused(verdict.number)?;
    Ok(if verdict.law == 0 { Judgement::Lawful(verdict.worst) } else { Judgement::Breaks(verdict.law) })
}

/// The lawful filling of greatest worst quality, the first among equals, as 4 · count bytes at the start of `answer`; the bytes behind them keep
/// their values. 2 to 15, 22 or 23 where there is none, and then `answer` is as it was.
pub fn search_into(job: &Job, answer: &mut [u8]) -> Result<Found, Number> {
    let Job { points, triangles, kept, inner, table } = *job;
    // SAFETY: each pointer and length are those of a slice; the function writes to `answer` alone, which no other slice overlaps.
    let found = unsafe {
        c::cottontuff_search_inner(
            points.as_ptr(),
            points.len(),
            triangles.as_ptr(),
            triangles.len(),
            kept.as_ptr(),
            kept.len(),
            inner.as_ptr(),
            inner.len(),
            table.as_ptr(),
            table.len(),
            answer.as_mut_ptr(),
            answer.len(),
        )
    };
    refused(found.number)?;
    Ok(Found { count: found.count as usize, worst: found.worst })
}

/// The lawful filling of greatest worst quality, the first among equals; 2 to 13, 15, 22 or 23 where there is none.
pub fn search(job: &Job) -> Result<Filling, Number> {
    let mut answer = [0; ANSWER_BYTES];
    let found = search_into(job, &mut answer)?;
    Ok(filling_in(&answer, found.count, found.worst))
}

fn filling_in(answer: &[u8], count: usize, worst: u32) -> Filling {
    let fours = answer.chunks_exact(4).take(count).map(|f| [f[0], f[1], f[2], f[3]]).collect();
    Filling { fours, worst }
}

/// The best filling within a limit on trials; 2 to 13, 22 or 23 where the job is refused. `include/cottontuff.h` says what a trial is.
///
/// A job without a lawful filling is no refusal here: the search comes to its end, `Ending::Complete`, with no filling and the trials that it made; so
/// `Err(Number::NO_FILLING)` is never given, and `ending` alone tells "there is none" from "none was found within the limit". A larger limit never gives a
/// lower worst quality, and `Ending::Complete` the answer of `search`. It is not the quick way: 2,000 trials often find far less than `search` does in a
/// millisecond, and a run of `u32::MAX` takes hours.
///
/// ```
/// use cottontuff::{search_limited, Ending, Job, Number};
///
/// let job = Job {
///     points: &[0, 0, 0, 6, 0, 0, 0, 6, 0, 1, 1, 5, 1, 1, -5],
///     triangles: &[0, 1, 3, 1, 2, 3, 2, 0, 3, 1, 0, 4, 2, 1, 4, 0, 2, 4],
///     table: &[500000, 400000, 450000, 450000, 460000],
///     ..Job::default()
/// };
/// // Two trials complete the first filling, five are all there are.
/// for (limit, ending, worst) in [
///     (0, Ending::Spent, None),
///     (1, Ending::Spent, None),
///     (2, Ending::Spent, Some(400000)),
///     (3, Ending::Spent, Some(400000)),
///     (4, Ending::Spent, Some(400000)),
///     (5, Ending::Complete, Some(450000)),
/// ] {
///     let limited = search_limited(&job, limit)?;
///     assert_eq!((limited.ending, limited.trials), (ending, limit));
///     assert_eq!(limited.filling.map(|filling| filling.worst), worst);
/// }
/// assert_eq!(search_limited(&job, 2000)?.trials, 5);
/// # Ok::<(), Number>(())
/// ```
pub fn search_limited(job: &Job, limit: u32) -> Result<Limited, Number> {
    let Job { points, triangles, kept, inner, table } = *job;
    let mut answer = [0; ANSWER_BYTES];
    // SAFETY: each pointer and length are those of a slice; the function writes to `answer` alone, which no other slice overlaps.
    let limited = unsafe {
        c::cottontuff_search_limited(
            points.as_ptr(),
            points.len(),
            triangles.as_ptr(),
            triangles.len(),
            kept.as_ptr(),
            kept.len(),
            inner.as_ptr(),
            inner.len(),
            table.as_ptr(),
            table.len(),
            limit,
            answer.as_mut_ptr(),
            answer.len(),
        )
    };
    let filling = match limited {
        c::Limited { number: 15, .. } | c::Limited { number: 0, spent: 1, count: 0, .. } => None,
        c::Limited { number: 0, count, worst, .. } => Some(filling_in(&answer, count as usize, worst)),
        c::Limited { number, .. } => return Err(Number(number)),
    };
    let ending = if limited.spent == 0 { Ending::Complete } else { Ending::Spent };
    Ok(Limited { ending, filling, trials: limited.trials })
}

/// Why the answer of `search` does not have the four of these points, in increasing order; 2 to 13, 22 or 23 where the job is refused, then 24 for a four that is
/// not increasing or names an absent point, whatever numbers it has, then 15 where there is no lawful filling. The empty job has no points, so that every four is 24.
///
/// ```
/// use cottontuff::{explain, Job, Number, Reason};
///
/// let job = Job {
///     points: &[0, 0, 0, 6, 0, 0, 0, 6, 0, 1, 1, 5, 1, 1, -5],
///     triangles: &[0, 1, 3, 1, 2, 3, 2, 0, 3, 1, 0, 4, 2, 1, 4, 0, 2, 4],
///     table: &[500000, 400000, 450000, 450000, 460000],
///     ..Job::default()
/// };
/// assert_eq!(explain(&job, [0, 1, 3, 4])?, Reason::InAnswer);
/// // Only with 0124 does it fill the hole, and that one has 400000.
/// let reason = explain(&job, [0, 1, 2, 3])?;
/// assert_eq!(reason, Reason::Lower(400000));
/// assert_eq!(reason.to_string(), "the best filling that holds it has a lower worst quality, 400000");
/// // With 0134 at 400000 both fillings are as good, and the list of two comes first.
/// let job = Job { table: &[500000, 400000, 400000, 450000, 460000], ..job };
/// assert_eq!(explain(&job, [0, 1, 3, 4])?, Reason::Later);
/// assert_eq!(explain(&job, [0, 1, 2, 5]), Err(Number::BAD_FOUR));
/// # Ok::<(), Number>(())
/// ```
pub fn explain(job: &Job, four: [u32; 4]) -> Result<Reason, Number> {
    let Job { points, triangles, kept, inner, table } = *job;
    let [a, b, c, d] = four;
    // SAFETY: each pointer and length are those of a slice, which the function only reads.
    let explanation = unsafe {
        c::cottontuff_explain(
            points.as_ptr(),
            points.len(),
            triangles.as_ptr(),
            triangles.len(),
            kept.as_ptr(),
            kept.len(),
            inner.as_ptr(),
            inner.len(),
            table.as_ptr(),
            table.len(),
            a,
            b,
            c,
            d,
        )
    };
    refused(explanation.number)?;
    Ok(match explanation.reason {
        1 => Reason::InAnswer,
        2 => Reason::Flat,
        3 => Reason::Barred,
        4 => Reason::PointInside(explanation.value),
        5 => Reason::NoFillingHoldsIt,
        6 => Reason::Lower(explanation.value),
        _ => Reason::Later,
    })
}

/// Removes the edge from `a` to `b`, around which the points of `ring` stand in order, counter-clockwise seen from `a`. Of the triangulations of the ring, each
/// triple joined to `a` and to `b`, the lawful one of greatest worst quality; among equals the first row of the table, which need not be the list that comes first.
/// `points` and `table` are those of the job, whose boundary is, for each two neighbours r, s of the ring, the last and the first too, (r, s, a) and (s, r, b).
///
/// 25 for a ring that is not 3 to 7 points, or where ring and ends repeat a point or are not exactly the points; then 2, 3, 4, 11, 12 or 13 where the job is
/// refused; then 26, no row is lawful. 26 does not say that there is no filling: `search` may have one that keeps the edge, or uses it otherwise. `search` on the
/// same job never has a lower worst quality, and may have a greater one.
///
/// ```
/// use cottontuff::{remove_edge, search, Job, Number};
///
/// // Case B, two pyramids on the base 0 1 2: the edge from 3 to 4 runs through it.
/// let points = [0, 0, 0, 6, 0, 0, 0, 6, 0, 1, 1, 5, 1, 1, -5];
/// let table = [500000, 400000, 450000, 450000, 460000];
/// let filling = remove_edge(&points, 3, 4, &[0, 1, 2], &table)?;
/// assert_eq!(filling.fours, [[0, 1, 2, 3], [0, 1, 2, 4]]);
/// assert_eq!(filling.worst, 400000);
/// // The search keeps the edge, since that is better.
/// let triangles = [0, 1, 3, 1, 2, 3, 2, 0, 3, 1, 0, 4, 2, 1, 4, 0, 2, 4];
/// let job = Job { points: &points, triangles: &triangles, table: &table, ..Job::default() };
/// assert_eq!(search(&job)?.worst, 450000);
/// // Clockwise seen from 3, or with 0124 barred: no row is lawful.
/// assert_eq!(remove_edge(&points, 3, 4, &[2, 1, 0], &table), Err(Number::NO_ROW));
/// assert_eq!(remove_edge(&points, 3, 4, &[0, 1, 2], &[500000, 0, 450000, 450000, 460000]), Err(Number::NO_ROW));
/// assert_eq!(remove_edge(&points, 3, 4, &[0, 1, 1], &table), Err(Number::BAD_RING));
/// # Ok::<(), Number>(())
/// ```
pub fn remove_edge(points: &[i32], a: u32, b: u32, ring: &[u8], table: &[i32]) -> Result<Filling, Number> {
    let mut answer = [0; ANSWER_BYTES];
    // SAFETY: each pointer and length are those of a slice; the function writes to `answer` alone, which no other slice overlaps.
    let found = unsafe {
        c::cottontuff_remove_edge(
            points.as_ptr(),
            points.len(),
            a,
            b,
            ring.as_ptr(),
            ring.len(),
            table.as_ptr(),
            table.len(),
            answer.as_mut_ptr(),
            answer.len(),
        )
    };
    refused(found.number)?;
    Ok(filling_in(&answer, found.count as usize, found.worst))
}

/// Measures the tetrahedron of twelve coordinates from -50,000 to 50,000, in whichever order of its corners; else 3 or 16.
pub fn measure(coordinates: &[i32]) -> Result<Measured, Number> {
    // SAFETY: the pointer and length are those of a slice, which the function only reads.
    let m = unsafe { c::cottontuff_measure(coordinates.as_ptr(), coordinates.len()) };
    refused(m.number)?;
    Ok(if m.flat == 0 {
        Measured::Shape { d: m.d, s: m.s, shape: m.shape, millionths: m.millionths }
    } else {
        Measured::Flat { s: m.s }
    })
}

/// Measures a job's table: every entry of -1 becomes the quality of its four, and stays -1 where the four is flat; no other entry is touched.
/// 2, 3, 4 or 11 for points or a table that can't be used, and then the table is as it was.
pub fn measure_table(points: &[i32], table: &mut [i32]) -> Result<(), Number> {
    // SAFETY: each pointer and length are those of a slice; the function writes to `table` alone, which `points` does not overlap.
    refused(unsafe { c::cottontuff_measure_table(points.as_ptr(), points.len(), table.as_mut_ptr(), table.len()) })
}

/// The printout of a job's text, at the start of `out`, and how many bytes it has; the bytes behind them keep their values.
/// An `out` under 43,695 bytes is left as it is, and the answer is none.
pub fn print_into(text: &[u8], out: &mut [u8]) -> Option<usize> {
    // SAFETY: each pointer and length are those of a slice; the function writes to `out` alone, which `text` does not overlap.
    let count = unsafe { c::cottontuff_print(text.as_ptr(), text.len(), out.as_mut_ptr(), out.len()) };
    (count > 0).then_some(count)
}

/// The printout of a job's text: the filling, or a line such as `R,15` for number 15.
pub fn print(text: &[u8]) -> Vec<u8> {
    let mut out = vec![0; PRINTOUT_BYTES];
    let count = print_into(text, &mut out).unwrap_or(0);
    out.truncate(count);
    out
}

/// The mesh bench: a mesh of 4 to 64 points and 1 to 256 tetrahedra, all measured, and perhaps an open cavity. A plain value, handed over and back.
///
/// The fields may be set to anything, and what counts is what they hold. A value whose mesh `load` would take, with the measured qualities and, where a cavity is
/// open, one of at least one tetrahedron and at most 16 points that has every tetrahedron within its points, is taken as it is; any other is treated as holding no
/// mesh and no cavity, and `load` may load.
#[repr(C)]
#[derive(Clone, Copy, Debug, PartialEq, Eq)]
pub struct Bench {
    /// x, y, z of each point.
    pub points: [i32; 192],
    /// Four point numbers for each tetrahedron, in the order in which they were given.
    pub tets: [u8; 1024],
    /// The measured quality of each tetrahedron, in millionths.
    pub qualities: [u32; 256],
    /// Not 0 at the tetrahedra of the open cavity.
    pub in_cavity: [u8; 256],
    /// Not 0 at the points of the open cavity.
    pub in_points: [u8; 64],
    pub point_count: u32,
    pub tet_count: u32,
    /// Successful replacements since the bench was fresh, stopping at 4,294,967,295.
    pub count: u32,
    /// Not 0 where a cavity is open.
    pub open: u8,
}

/// Every operation changes the bench or gives a number and leaves it as it was.
impl Bench {
    /// A bench without a mesh, nothing replaced.
    pub fn fresh() -> Bench {
        // SAFETY: the function takes nothing and returns a value.
        unsafe { c::cottontuff_bench_fresh() }
    }

    /// Takes a mesh in; the count of replacements stays. 32; 2, 3, 4, 17, 18, 19.
    pub fn load(&mut self, points: &[i32], tets: &[u8]) -> Result<(), Number> {
        // SAFETY: each pointer and length are those of a slice, which the function only reads.
        self.take(unsafe { c::cottontuff_bench_load(*self, points.as_ptr(), points.len(), tets.as_ptr(), tets.len()) })
    }

    /// Opens a cavity with one tetrahedron. 31, 32; 20.
    pub fn open_at(&mut self, tet: u32) -> Result<(), Number> {
        // SAFETY: the function takes and returns values.
        self.take(unsafe { c::cottontuff_bench_open(*self, tet) })
    }

    /// The cavity takes in one more point. 31, 33, 34, 35.
    pub fn grow(&mut self) -> Result<(), Number> {
        // SAFETY: the function takes and returns values.
        self.take(unsafe { c::cottontuff_bench_grow(*self) })
    }

    /// Fills the cavity anew where that is better, and closes it. 31, 33, 36, 37, 38.
    pub fn replace(&mut self) -> Result<(), Number> {
        // SAFETY: the function takes and returns values.
        self.take(unsafe { c::cottontuff_bench_replace(*self) })
    }

    /// Drops the cavity. 31, 33.
    pub fn close(&mut self) -> Result<(), Number> {
        // SAFETY: the function takes and returns values.
        self.take(unsafe { c::cottontuff_bench_close(*self) })
    }

    /// x, y, z of each point that is held.
    pub fn point_list(&self) -> &[i32] {
        &self.points[..3 * self.point_count.min(64) as usize]
    }

    /// Four point numbers for each tetrahedron that is held.
    pub fn tet_list(&self) -> &[u8] {
        &self.tets[..4 * self.tet_count.min(256) as usize]
    }

    /// The quality of each tetrahedron that is held, in millionths.
    pub fn quality_list(&self) -> &[u32] {
        &self.qualities[..self.tet_count.min(256) as usize]
    }

    /// The numbers of the tetrahedra of the open cavity, ascending; none where no cavity is open.
    pub fn cavity(&self) -> Option<Vec<u32>> {
        (self.open != 0).then(|| numbers_of_marks(&self.in_cavity))
    }

    /// The numbers of the points of the open cavity, ascending; none where no cavity is open.
    pub fn cavity_points(&self) -> Option<Vec<u32>> {
        (self.open != 0).then(|| numbers_of_marks(&self.in_points))
    }

    fn take(&mut self, answer: c::BenchAnswer) -> Result<(), Number> {
        refused(answer.number)?;
        *self = answer.bench;
        Ok(())
    }
}

fn numbers_of_marks(marks: &[u8]) -> Vec<u32> {
    (0..).zip(marks).filter(|(_, mark)| **mark != 0).map(|(number, _)| number).collect()
}

#[cfg(test)]
mod tests {
    use super::*;

    const B_POINTS: [i32; 15] = [0, 0, 0, 6, 0, 0, 0, 6, 0, 1, 1, 5, 1, 1, -5];
    const B_TRIANGLES: [u8; 18] = [0, 1, 3, 1, 2, 3, 2, 0, 3, 1, 0, 4, 2, 1, 4, 0, 2, 4];
    const B_TABLE: [i32; 5] = [500000, 400000, 450000, 450000, 460000];
    const TET_TRIANGLES: [u8; 12] = [0, 2, 1, 0, 1, 3, 0, 3, 2, 1, 2, 3];

    fn b<'a>(kept: &'a [u8], table: &'a [i32]) -> Job<'a> {
        Job { points: &B_POINTS, triangles: &B_TRIANGLES, kept, inner: &[], table }
    }

    fn filled(fours: &[[u8; 4]], worst: u32) -> Result<Filling, Number> {
        Ok(Filling { fours: fours.to_vec(), worst })
    }

    #[test]
    fn case_a_is_one_tetrahedron() {
        let points = [0, 0, 0, 1, 0, 0, 0, 1, 0, 0, 0, 1];
        let shape = 432.0 / 729.0;
        assert_eq!(measure(&points), Ok(Measured::Shape { d: 1.0, s: 9.0, shape, millionths: 592592 }));
        let job = Job { points: &points, triangles: &TET_TRIANGLES, table: &[592592], ..Job::default() };
        assert_eq!(search(&job), filled(&[[0, 1, 2, 3]], 592592));
    }

    #[test]
    fn case_b_has_three() {
        let three = filled(&[[0, 1, 3, 4], [0, 2, 3, 4], [1, 2, 3, 4]], 450000);
        assert_eq!(check(&b(&[], &B_TABLE)), Ok(()));
        assert_eq!(search(&b(&[], &B_TABLE)), three);
        let mut table = B_TABLE;
        table[1] = 500000;
        assert_eq!(search(&b(&[3, 4], &table)), three);
        assert_eq!(search(&b(&[4, 3, 3, 4], &table)), three);
    }

    #[test]
    fn case_b_has_two_where_they_are_as_good_or_better() {
        let two = [[0, 1, 2, 3], [0, 1, 2, 4]];
        let mut table = B_TABLE;
        table[2] = 400000;
        assert_eq!(search(&b(&[], &table)), filled(&two, 400000));
        table = B_TABLE;
        table[1] = 500000;
        assert_eq!(search(&b(&[], &table)), filled(&two, 500000));
    }

    #[test]
    fn case_b_barred_and_unmeasured() {
        let mut table = B_TABLE;
        table[1] = 0;
        table[2] = 0;
        assert_eq!(search(&b(&[], &table)), Err(Number::NO_FILLING));
        table = B_TABLE;
        table[0] = -1;
        assert_eq!(check(&b(&[], &table)), Err(Number::UNMEASURED));
        assert_eq!(search(&b(&[], &table)), Err(Number::UNMEASURED));
        assert_eq!(judge(&b(&[], &table), &[]), Err(Number::UNMEASURED));
    }

    #[test]
    fn an_inner_point_is_met_by_four() {
        let points = [0, 0, 0, 4, 0, 0, 0, 4, 0, 0, 0, 4, 1, 1, 1];
        let job = Job { points: &points, triangles: &TET_TRIANGLES, table: &[1; 5], ..Job::default() };
        assert_eq!(search(&job), filled(&[[0, 1, 2, 4], [0, 1, 3, 4], [0, 2, 3, 4], [1, 2, 3, 4]], 1));
        assert_eq!(judge(&job, &[0, 1, 2, 3]), Ok(Judgement::Breaks(3)));
    }

    #[test]
    fn the_judge_names_the_lowest_law() {
        let job = b(&[], &B_TABLE);
        assert_eq!(judge(&job, &[0, 1, 2, 3, 0, 1, 2, 4]), Ok(Judgement::Lawful(400000)));
        assert_eq!(judge(&job, &[0, 1, 2, 3]), Ok(Judgement::Breaks(4)));
        assert_eq!(judge(&job, &[]), Ok(Judgement::Breaks(4)));
        assert_eq!(judge(&job, &[0, 1, 2]), Ok(Judgement::Breaks(1)));
        assert_eq!(judge(&b(&[3, 4], &B_TABLE), &[0, 1, 2, 3, 0, 1, 2, 4]), Ok(Judgement::Breaks(7)));
    }

    fn with_inner(inner: &[u8]) -> Job<'_> {
        Job { inner, ..b(&[], &B_TABLE) }
    }

    #[test]
    fn inner_triangles_are_kept() {
        let two = [[0, 1, 2, 3], [0, 1, 2, 4]];
        // Either way round, twice, and with a boundary triangle, which is a face in any case.
        for inner in [&[0, 1, 2][..], &[2, 1, 0], &[0, 1, 2, 1, 0, 2], &[0, 1, 3, 0, 1, 2]] {
            assert_eq!(search(&with_inner(inner)), filled(&two, 400000));
        }
        assert_eq!(search(&with_inner(&[3, 1, 0])), search(&with_inner(&[])));
        assert_eq!(search(&with_inner(&[0, 1, 2, 0, 3, 4])), Err(Number::NO_FILLING));
        let three = [0, 1, 3, 4, 0, 2, 3, 4, 1, 2, 3, 4];
        assert_eq!(judge(&with_inner(&[]), &three), Ok(Judgement::Lawful(450000)));
        assert_eq!(judge(&with_inner(&[2, 0, 1]), &three), Ok(Judgement::Breaks(8)));
        assert_eq!(judge(&with_inner(&[2, 0, 1]), &[0, 1, 2, 3, 0, 1, 2, 4]), Ok(Judgement::Lawful(400000)));
        // Law 8 comes last.
        assert_eq!(judge(&with_inner(&[0, 1, 2]), &three[..8]), Ok(Judgement::Breaks(4)));
        assert_eq!(
            judge(&Job { kept: &[0, 3, 3, 4], ..with_inner(&[0, 3, 4]) }, &[0, 1, 2, 3, 0, 1, 2, 4]),
            Ok(Judgement::Breaks(7))
        );
    }

    #[test]
    fn inner_triangles_are_refused_between_10_and_11() {
        assert_eq!(check(&with_inner(&[0, 1, 2].repeat(560))), Ok(()));
        assert_eq!(check(&with_inner(&[0, 1, 2].repeat(561))), Err(Number::INNER_COUNT));
        // A length that is no multiple of 3 is 22, also where the odd bytes would name an absent point.
        for inner in [&[0, 1][..], &[0, 1, 2, 9], &[9, 9]] {
            assert_eq!(check(&with_inner(inner)), Err(Number::INNER_COUNT));
            assert_eq!(search(&with_inner(inner)), Err(Number::INNER_COUNT));
        }
        for inner in [&[0, 1, 5][..], &[0, 1, 1], &[0, 1, 2, 255, 0, 1]] {
            assert_eq!(check(&with_inner(inner)), Err(Number::BAD_INNER));
            assert_eq!(judge(&with_inner(inner), &[]), Err(Number::BAD_INNER));
        }
        assert_eq!(check(&Job { kept: &[3, 3], ..with_inner(&[0]) }), Err(Number::BAD_KEPT));
        assert_eq!(check(&Job { table: &[], ..with_inner(&[0]) }), Err(Number::INNER_COUNT));
        assert_eq!(check(&Job { table: &[], ..with_inner(&[0, 1, 5]) }), Err(Number::BAD_INNER));
        assert_eq!(search_into(&with_inner(&[0, 1, 5]), &mut []), Err(Number::BAD_INNER));
    }

    fn limited(ending: Ending, filling: Option<(&[[u8; 4]], u32)>, trials: u32) -> Result<Limited, Number> {
        let filling = filling.map(|(fours, worst)| Filling { fours: fours.to_vec(), worst });
        Ok(Limited { ending, filling, trials })
    }

    #[test]
    fn case_b_within_a_limit() {
        let job = b(&[], &B_TABLE);
        let two: Option<(&[[u8; 4]], u32)> = Some((&[[0, 1, 2, 3], [0, 1, 2, 4]], 400000));
        let three: Option<(&[[u8; 4]], u32)> = Some((&[[0, 1, 3, 4], [0, 2, 3, 4], [1, 2, 3, 4]], 450000));
        for (limit, filling) in [None, None, two, two, two].into_iter().enumerate() {
            let limit = limit as u32;
            assert_eq!(search_limited(&job, limit), limited(Ending::Spent, filling, limit));
        }
        for limit in [5, 6, 2000, u32::MAX] {
            assert_eq!(search_limited(&job, limit), limited(Ending::Complete, three, 5));
        }
        // Of equals the list that comes first: the two are found first and stay.
        let mut table = B_TABLE;
        table[2] = 400000;
        assert_eq!(search_limited(&b(&[], &table), 5), limited(Ending::Complete, two, 5));
    }

    #[test]
    fn kept_edges_speak_at_the_end() {
        // The two close the boundary at the second trial, and have no edge 3 4.
        let job = b(&[3, 4], &B_TABLE);
        assert_eq!(search_limited(&job, 4), limited(Ending::Spent, None, 4));
        assert_eq!(search_limited(&job, 5).map(|l| l.filling), search(&job).map(Some));
    }

    #[test]
    fn the_empty_job_has_no_trial() {
        for limit in [0, 1, u32::MAX] {
            assert_eq!(search_limited(&Job::default(), limit), limited(Ending::Complete, Some((&[], 1_000_000)), 0));
        }
    }

    #[test]
    fn no_filling_is_told_with_its_trials() {
        let mut table = B_TABLE;
        table[1] = 0;
        table[2] = 0;
        let job = b(&[], &table);
        assert_eq!(search(&job), Err(Number::NO_FILLING));
        assert_eq!(search_limited(&job, 0), limited(Ending::Spent, None, 0));
        for limit in [1, 2, u32::MAX] {
            assert_eq!(search_limited(&job, limit), limited(Ending::Complete, None, 1));
        }
        // Nothing at all may be set.
        for limit in [0, 1] {
            assert_eq!(search_limited(&b(&[], &[0; 5]), limit), limited(Ending::Complete, None, 0));
        }
    }

    #[test]
    fn a_limit_refuses_what_the_search_refuses() {
        let mut table = B_TABLE;
        table[0] = -1;
        for limit in [0, 5] {
            assert_eq!(search_limited(&b(&[], &table), limit), Err(Number::UNMEASURED));
            assert_eq!(search_limited(&b(&[0], &table), limit), Err(Number::KEPT_COUNT));
            assert_eq!(search_limited(&with_inner(&[0, 1, 5]), limit), Err(Number::BAD_INNER));
            assert_eq!(search_limited(&Job { table: &B_TABLE, ..Job::default() }, limit), Err(Number::POINT_COUNT));
        }
    }

    #[test]
    fn case_b_explained() {
        let job = b(&[], &B_TABLE);
        for four in [[0, 1, 3, 4], [0, 2, 3, 4], [1, 2, 3, 4]] {
            assert_eq!(explain(&job, four), Ok(Reason::InAnswer));
        }
        // The quality of the filling, not of the four itself.
        for four in [[0, 1, 2, 3], [0, 1, 2, 4]] {
            assert_eq!(explain(&job, four), Ok(Reason::Lower(400000)));
        }
        let mut table = B_TABLE;
        table[2] = 400000;
        for (four, reason) in
            [([0, 1, 2, 3], Reason::InAnswer), ([0, 1, 3, 4], Reason::Later), ([1, 2, 3, 4], Reason::Later)]
        {
            assert_eq!(explain(&b(&[], &table), four), Ok(reason));
        }
        // What a four lacks to fill the hole is barred, or in the way of a kept edge or an inner triangle.
        let mut table = B_TABLE;
        table[1] = 0;
        assert_eq!(explain(&b(&[], &table), [0, 1, 2, 4]), Ok(Reason::Barred));
        assert_eq!(explain(&b(&[], &table), [0, 1, 2, 3]), Ok(Reason::NoFillingHoldsIt));
        assert_eq!(explain(&b(&[3, 4], &B_TABLE), [0, 1, 2, 3]), Ok(Reason::NoFillingHoldsIt));
        assert_eq!(explain(&with_inner(&[0, 1, 2]), [0, 1, 3, 4]), Ok(Reason::NoFillingHoldsIt));
    }

    #[test]
    fn a_point_inside_and_flat_fours_are_explained() {
        let points = [0, 0, 0, 4, 0, 0, 0, 4, 0, 0, 0, 4, 1, 1, 1];
        let job = Job { points: &points, triangles: &TET_TRIANGLES, table: &[1; 5], ..Job::default() };
        assert_eq!(explain(&job, [0, 1, 2, 3]), Ok(Reason::PointInside(4)));
        // Barred comes before a point inside.
        assert_eq!(explain(&Job { table: &[0, 1, 1, 1, 1], ..job }, [0, 1, 2, 3]), Ok(Reason::Barred));
        // Two tetrahedra over a square, whose four corners are flat, whatever their entry.
        let points = [0, 0, 0, 4, 0, 0, 4, 4, 0, 0, 4, 0, 1, 1, 4];
        let triangles = [0, 2, 1, 0, 3, 2, 0, 1, 4, 1, 2, 4, 2, 3, 4, 3, 0, 4];
        for entry in [-1, 0, 1] {
            let table = [entry, 1, 1, 1, 1];
            let job = Job { points: &points, triangles: &triangles, table: &table, ..Job::default() };
            assert_eq!(explain(&job, [0, 1, 2, 3]), Ok(Reason::Flat));
            assert_eq!(explain(&job, [0, 1, 2, 4]), Ok(Reason::InAnswer));
            assert_eq!(explain(&job, [0, 1, 3, 4]), Ok(Reason::NoFillingHoldsIt));
        }
    }

    const BAD_FOURS: [[u32; 4]; 12] = [
        [0, 1, 2, 5],
        [0, 0, 1, 2],
        [0, 1, 1, 2],
        [0, 1, 2, 2],
        [1, 0, 2, 3],
        [0, 2, 1, 3],
        [0, 1, 3, 2],
        [3, 2, 1, 0],
        // The low bytes of these would name a four that is there.
        [0, 1, 2, 256 + 3],
        [0, 1, 2, 65536 + 3],
        [256, 257, 258, 259],
        [u32::MAX; 4],
    ];

    #[test]
    fn a_bad_four_comes_after_the_job_and_before_15() {
        let mut table = B_TABLE;
        table[1] = 0;
        table[2] = 0;
        let (unfillable, mut unmeasured) = (b(&[], &table), B_TABLE);
        unmeasured[0] = -1;
        for four in BAD_FOURS {
            assert_eq!(explain(&b(&[], &B_TABLE), four), Err(Number::BAD_FOUR));
            assert_eq!(explain(&unfillable, four), Err(Number::BAD_FOUR));
            assert_eq!(explain(&Job::default(), four), Err(Number::BAD_FOUR));
            assert_eq!(explain(&b(&[], &unmeasured), four), Err(Number::UNMEASURED));
            assert_eq!(explain(&with_inner(&[0, 1, 5]), four), Err(Number::BAD_INNER));
        }
        assert_eq!(explain(&Job::default(), [0, 1, 2, 3]), Err(Number::BAD_FOUR));
        // A barred four too: the job has no answer to be in.
        for four in [[0, 1, 2, 3], [0, 1, 2, 4]] {
            assert_eq!(explain(&unfillable, four), Err(Number::NO_FILLING));
        }
    }

    #[test]
    fn reasons_are_sentences() {
        let all = [
            (Reason::InAnswer, "it is in the answer"),
            (Reason::Flat, "it is flat"),
            (Reason::Barred, "it is barred"),
            (Reason::PointInside(0), "point 0 is strictly inside it"),
            (Reason::NoFillingHoldsIt, "no lawful filling holds it"),
            (Reason::Lower(1), "the best filling that holds it has a lower worst quality, 1"),
            (Reason::Later, "a filling that holds it is as good, but stands later in the order of lists"),
        ];
        for (reason, sentence) in all {
            assert_eq!(reason.to_string(), sentence);
        }
    }

    #[test]
    fn case_b_as_a_ring_of_three() {
        let two = filled(&[[0, 1, 2, 3], [0, 1, 2, 4]], 400000);
        for ring in [[0, 1, 2], [1, 2, 0], [2, 0, 1]] {
            assert_eq!(remove_edge(&B_POINTS, 3, 4, &ring, &B_TABLE), two);
        }
        // Seen from the other end the ring turns the other way.
        assert_eq!(remove_edge(&B_POINTS, 4, 3, &[0, 2, 1], &B_TABLE), two);
        assert_eq!(remove_edge(&B_POINTS, 4, 3, &[0, 1, 2], &B_TABLE), Err(Number::NO_ROW));
        let mut table = B_TABLE;
        table[1] = 0;
        assert_eq!(remove_edge(&B_POINTS, 3, 4, &[0, 1, 2], &table), Err(Number::NO_ROW));
        assert_eq!(search(&b(&[], &table)).map(|filling| filling.worst), Ok(450000));
    }

    // Two ends over and under a square, ring 0 3 1 2 in order; either diagonal is a row.
    const SQUARE: [i32; 18] = [9, 0, 0, -9, 0, 0, 0, -9, 0, 0, 9, 0, 1, 2, 7, 1, 2, -7];

    #[test]
    fn the_better_row_and_the_first_among_equals() {
        // The four corners of the square are flat; every other entry is 5.
        let mut table = [5; 15];
        table[0] = -1;
        let first = [[0, 1, 2, 4], [0, 1, 2, 5], [0, 1, 3, 4], [0, 1, 3, 5]];
        let second = [[0, 2, 3, 4], [0, 2, 3, 5], [1, 2, 3, 4], [1, 2, 3, 5]];
        // Positions 0 1 2 and 0 2 3 are the first row: the diagonal of ring[0] and ring[2].
        assert_eq!(remove_edge(&SQUARE, 4, 5, &[0, 3, 1, 2], &table), filled(&first, 5));
        // From the next point on the other diagonal is the first row, though its list comes later.
        assert_eq!(remove_edge(&SQUARE, 4, 5, &[3, 1, 2, 0], &table), filled(&second, 5));
        // 0 1 3 4 is worse: so is every row that has it.
        table[3] = 4;
        assert_eq!(remove_edge(&SQUARE, 4, 5, &[0, 3, 1, 2], &table), filled(&second, 5));
        table[10] = 3;
        assert_eq!(remove_edge(&SQUARE, 4, 5, &[0, 3, 1, 2], &table), filled(&first, 4));
    }

    #[test]
    fn a_bad_ring_comes_first_and_no_row_last() {
        let bad: [(u32, u32, &[u8]); 13] = [
            (3, 4, &[]),
            (3, 4, &[0, 1]),
            (3, 4, &[0, 1, 1]),
            (3, 4, &[0, 1, 3]),
            (3, 4, &[0, 1, 4]),
            (3, 4, &[0, 1, 5]),
            (3, 4, &[0, 1, 255]),
            (3, 4, &[0, 1, 2, 0]),
            (3, 3, &[0, 1, 2]),
            (3, 5, &[0, 1, 2]),
            // The low bytes of these would be the ends.
            (256 + 3, 4, &[0, 1, 2]),
            (3, 65536 + 4, &[0, 1, 2]),
            (u32::MAX, u32::MAX - 1, &[0, 1, 2]),
        ];
        for (a, b, ring) in bad {
            assert_eq!(remove_edge(&B_POINTS, a, b, ring, &B_TABLE), Err(Number::BAD_RING));
            assert_eq!(remove_edge(&[0; 15], a, b, ring, &[]), Err(Number::BAD_RING));
        }
        assert_eq!(remove_edge(&[], 0, 0, &[], &[]), Err(Number::BAD_RING));
        let ask = |points: &[i32], table: &[i32]| remove_edge(points, 3, 4, &[2, 1, 0], table);
        // A coordinate too many leaves as many points; a point too many does not.
        assert_eq!(ask(&[&B_POINTS[..], &[0]].concat(), &[]), Err(Number::POINT_COUNT));
        assert_eq!(ask(&[&B_POINTS[..], &[0, 0, 0]].concat(), &B_TABLE), Err(Number::BAD_RING));
        let mut points = B_POINTS;
        points[14] = -50_001;
        assert_eq!(ask(&points, &[]), Err(Number::FAR_COORDINATE));
        assert_eq!(ask(&[0; 15], &[]), Err(Number::SAME_PLACE));
        assert_eq!(ask(&B_POINTS, &B_TABLE[..4]), Err(Number::TABLE_LENGTH));
        assert_eq!(ask(&B_POINTS, &[-1, 0, 0, 0, -2]), Err(Number::BAD_ENTRY));
        assert_eq!(ask(&B_POINTS, &[-1, 0, 0, 0, 0]), Err(Number::UNMEASURED));
        assert_eq!(ask(&B_POINTS, &B_TABLE), Err(Number::NO_ROW));
    }

    // Sixteen points on a curve; the boundary is that of the first four.
    fn on_a_curve(count: i32) -> Vec<i32> {
        (0..count).flat_map(|i| [i, i * i, i * i * i]).collect()
    }

    #[test]
    fn limits_of_points_and_coordinates() {
        let table = [1; 1820];
        let points = on_a_curve(16);
        let job = Job { points: &points, triangles: &TET_TRIANGLES, table: &table, ..Job::default() };
        assert_eq!(check(&job), Ok(()));
        let points = on_a_curve(17);
        assert_eq!(check(&Job { points: &points, ..job }), Err(Number::POINT_COUNT));
        let mut points = B_POINTS;
        // 10001 was refused before version 1.5.0.
        for z in [10001, -10001, 50000, -50000] {
            points[14] = z;
            assert_eq!(check(&Job { points: &points, ..b(&[], &B_TABLE) }), Ok(()));
        }
        for z in [50001, -50001, i32::MAX, i32::MIN] {
            points[14] = z;
            assert_eq!(check(&Job { points: &points, ..b(&[], &B_TABLE) }), Err(Number::FAR_COORDINATE));
        }
    }

    #[test]
    fn the_empty_job_has_the_empty_list() {
        let job = Job::default();
        assert_eq!(check(&job), Ok(()));
        assert_eq!(search(&job), filled(&[], 1_000_000));
        assert_eq!(judge(&job, &[]), Ok(Judgement::Lawful(1_000_000)));
        // No point is there: every other list breaks law 1.
        for list in [&[0][..], &[0, 1, 2], &[0, 1, 2, 3], &[255; 4], &[0, 1, 2, 3, 4, 5, 6, 7]] {
            assert_eq!(judge(&job, list), Ok(Judgement::Breaks(1)));
        }
        let mut enough = [0xa5; ANSWER_BYTES];
        assert_eq!(search_into(&job, &mut enough), Ok(Found { count: 0, worst: 1_000_000 }));
        assert_eq!(enough, [0xa5; ANSWER_BYTES]);
        let mut short = [0xa5; ANSWER_BYTES - 1];
        assert_eq!(search_into(&job, &mut short), Err(Number::SHORT_BUFFER));
        assert_eq!(short, [0xa5; ANSWER_BYTES - 1]);
        assert_eq!(search_into(&job, &mut []), Err(Number::SHORT_BUFFER));
    }

    #[test]
    fn empty_lists_are_refused() {
        // Every pattern of empty and non-empty lists but the empty job. With points, triangles and table a job is sound.
        for pattern in 1..32 {
            let has = |bit: u8| pattern >> bit & 1 == 1;
            let job = Job {
                points: if has(0) { &B_POINTS } else { &[] },
                triangles: if has(1) { &B_TRIANGLES } else { &[] },
                kept: if has(2) { &[0, 1] } else { &[] },
                inner: if has(3) { &[0, 1, 3] } else { &[] },
                table: if has(4) { &B_TABLE } else { &[] },
            };
            let number = match (has(0), has(1), has(4)) {
                (false, _, _) => Number::POINT_COUNT,
                (true, false, _) => Number::TRIANGLE_COUNT,
                (true, true, false) => Number::TABLE_LENGTH,
                (true, true, true) => {
                    assert_eq!(check(&job), Ok(()));
                    continue;
                }
            };
            assert_eq!(check(&job), Err(number));
            assert_eq!(judge(&job, &[]), Err(number));
            assert_eq!(search(&job), Err(number));
            assert_eq!(search_into(&job, &mut []), Err(number));
        }
        // One entry is enough.
        let none = Job::default();
        for job in [
            Job { points: &[0], ..none },
            Job { triangles: &[0], ..none },
            Job { kept: &[0], ..none },
            Job { inner: &[0], ..none },
            Job { table: &[0], ..none },
        ] {
            assert_eq!(search(&job), Err(Number::POINT_COUNT));
        }
        assert_eq!(Bench::fresh().load(&[], &[]), Err(Number::POINT_COUNT));
    }

    #[test]
    fn a_short_answer_buffer_is_unchanged() {
        let job = b(&[], &B_TABLE);
        let mut short = [0xa5; ANSWER_BYTES - 1];
        assert_eq!(search_into(&job, &mut short), Err(Number::SHORT_BUFFER));
        assert_eq!(short, [0xa5; ANSWER_BYTES - 1]);
        let mut enough = [0xa5; ANSWER_BYTES];
        assert_eq!(search_into(&job, &mut enough), Ok(Found { count: 3, worst: 450000 }));
        assert_eq!(enough[..12], [0, 1, 3, 4, 0, 2, 3, 4, 1, 2, 3, 4]);
        assert!(enough[12..].iter().all(|byte| *byte == 0xa5));
    }

    #[test]
    fn measuring_refuses_and_knows_flat() {
        assert_eq!(measure(&[]), Err(Number::NOT_TWELVE));
        assert_eq!(measure(&[0; 13]), Err(Number::NOT_TWELVE));
        assert_eq!(measure(&[50001; 13]), Err(Number::FAR_COORDINATE));
        assert_eq!(measure(&[10001; 13]), Err(Number::NOT_TWELVE));
        assert_eq!(measure(&[50000; 12]), Ok(Measured::Flat { s: 0.0 }));
        assert_eq!(measure(&[i32::MIN; 12]), Err(Number::FAR_COORDINATE));
        assert_eq!(measure(&[0, 0, 0, 1, 0, 0, 0, 1, 0, 1, 1, 0]), Ok(Measured::Flat { s: 8.0 }));
    }

    #[test]
    fn a_table_is_measured_where_it_is_not() {
        let mut table = [-1; 5];
        assert_eq!(measure_table(&B_POINTS, &mut table), Ok(()));
        assert_eq!(table, [687924, 687924, 62465, 62465, 468104]);
        assert_eq!(search(&b(&[], &table)), filled(&[[0, 1, 2, 3], [0, 1, 2, 4]], 687924));
        // What stands is left as it is: barred, measured by hand, or bad.
        let mut some = [0, -1, 1_000_001, -2, -1];
        assert_eq!(measure_table(&B_POINTS, &mut some), Ok(()));
        assert_eq!(some, [0, 687924, 1_000_001, -2, 468104]);
        // A flat four stays unmeasured.
        let square = [0, 0, 0, 1, 0, 0, 0, 1, 0, 1, 1, 0];
        let mut flat = [-1];
        assert_eq!(measure_table(&square, &mut flat), Ok(()));
        assert_eq!(flat, [-1]);
    }

    #[test]
    fn a_table_that_cannot_be_measured_is_left() {
        let refuses = |points: &[i32], len: usize| {
            let mut table = vec![-1; len];
            let number = measure_table(points, &mut table);
            assert!(table.iter().all(|entry| *entry == -1));
            number
        };
        assert_eq!(refuses(&[], 0), Err(Number::POINT_COUNT));
        assert_eq!(refuses(&[0; 51], 2380), Err(Number::POINT_COUNT));
        assert_eq!(refuses(&[0, 0, 0, 1, 0, 0, 0, 1, 0, 0, 0, 50001], 2), Err(Number::FAR_COORDINATE));
        assert_eq!(refuses(&[0, 0, 0, 1, 0, 0, 0, 1, 0, 0, 1, 0], 2), Err(Number::SAME_PLACE));
        assert_eq!(refuses(&B_POINTS, 4), Err(Number::TABLE_LENGTH));
        assert_eq!(refuses(&B_POINTS, 6), Err(Number::TABLE_LENGTH));
    }

    const B_TEXT: &[u8] =
        b"P,0,0,0\nP,6,0,0\nP,0,6,0\nP,1,1,5\nP,1,1,-5\nT,0,1,3\nT,1,2,3\nT,2,0,3\nT,1,0,4\nT,2,1,4\nT,0,2,4\n\
        Q,0,1,2,3,500000\nQ,0,1,2,4,400000\nQ,0,1,3,4,450000\nQ,0,2,3,4,450000\nQ,1,2,3,4,460000\n";

    #[test]
    fn a_text_has_a_printout() {
        let printout = b"F,3,450000\nH,0,1,3,4,450000,2\nH,0,2,3,4,450000,2\nH,1,2,3,4,460000,2\n";
        assert_eq!(print(B_TEXT), printout);
        assert_eq!(print(b""), b"F,0,1000000\n");
        for lines in [&b"P,0,0,0\n"[..], b"T,0,1,2\n", b"E,0,1\n", b"K,0,1,2\n", b"Q,0,1,2,3,5\n"] {
            assert_eq!(print(lines), b"R,2\n");
        }
        assert_eq!(print(b"P,0,0\n"), b"R,1\n");
        assert_eq!(print(&[b'\n'; 65537]), b"R,1\n");
        let mut short = [0xa5; PRINTOUT_BYTES - 1];
        assert_eq!(print_into(B_TEXT, &mut short), None);
        assert_eq!(short, [0xa5; PRINTOUT_BYTES - 1]);
        let mut enough = [0xa5; PRINTOUT_BYTES];
        assert_eq!(print_into(B_TEXT, &mut enough), Some(printout.len()));
        assert!(enough[printout.len()..].iter().all(|byte| *byte == 0xa5));
    }

    #[test]
    fn a_bench_replaces_two_by_three() {
        let mut bench = Bench::fresh();
        let points = [12, 0, 0, 0, 12, 0, 0, 0, 12, 1, 1, 1, 7, 7, 7];
        assert_eq!(bench.grow(), Err(Number::NO_MESH));
        assert_eq!(bench.load(&points, &[0, 1, 2]), Err(Number::TET_COUNT));
        assert_eq!(bench, Bench::fresh());
        assert_eq!(bench.load(&points, &[0, 1, 2, 3, 2, 1, 0, 4]), Ok(()));
        assert_eq!(bench.quality_list(), [387083, 387083]);
        assert_eq!(bench.open_at(2), Err(Number::NO_SUCH_TET));
        assert_eq!(bench.open_at(0), Ok(()));
        assert_eq!((bench.cavity(), bench.cavity_points()), (Some(vec![0]), Some(vec![0, 1, 2, 3])));
        assert_eq!(bench.replace(), Err(Number::NOT_BETTER));
        assert_eq!(bench.grow(), Ok(()));
        assert_eq!(bench.grow(), Err(Number::NOTHING_AROUND));
        assert_eq!(bench.replace(), Ok(()));
        assert_eq!(bench.point_list(), points);
        assert_eq!(bench.tet_list(), [0, 1, 3, 4, 0, 2, 3, 4, 1, 2, 3, 4]);
        assert_eq!(bench.quality_list(), [460545; 3]);
        assert_eq!((bench.count, bench.cavity()), (1, None));
        assert_eq!(bench.close(), Err(Number::NO_CAVITY));
    }

    #[test]
    fn a_spoiled_bench_holds_no_mesh() {
        let mut bench = Bench::fresh();
        bench.load(&[0, 0, 0, 6, 0, 0, 0, 6, 0, 0, 0, 6], &[0, 1, 2, 3]).unwrap();
        bench.tet_count = u32::MAX;
        let spoiled = bench;
        assert_eq!(bench.open_at(0), Err(Number::NO_MESH));
        assert_eq!(bench, spoiled);
        assert_eq!((bench.tet_list().len(), bench.quality_list().len()), (1024, 256));
    }

    #[test]
    fn numbers_have_the_papers_words() {
        assert_eq!(Number::NO_FILLING.to_string(), "15: no lawful filling exists");
        assert_eq!(Number(99).to_string(), "99");
        let all: Vec<u32> = Number::ALL.iter().map(|number| number.0).collect();
        assert_eq!(all, (1..=20).chain(22..=26).chain(31..=38).collect::<Vec<u32>>());
    }
}
