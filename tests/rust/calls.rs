//! The C functions as they stand, on lists in memory of their own (see `lent`).
use crate::jobs::Made;
use crate::lent::Room;
use cottontuff::{c, Job};
use std::ptr::null;

/// A room for each list of a job.
pub struct Rooms([Room; 5]);

impl Rooms {
    pub fn new() -> Rooms {
        Rooms([0; 5].map(|_| Room::new(16_384)))
    }

    pub fn lend(&mut self, made: &Made) -> Job<'_> {
        let [points, triangles, kept, inner, table] = &mut self.0;
        Job {
            points: points.lend(&made.points),
            triangles: triangles.lend(&made.triangles),
            kept: kept.lend(&made.kept),
            inner: inner.lend(&made.inner),
            table: table.lend(&made.table),
        }
    }
}

/// Where a list starts. C hands over null for a list of none, and Rust an address that is not null: the safe functions are called with that one.
fn start<T>(list: &[T]) -> *const T {
    if list.is_empty() {
        null()
    } else {
        list.as_ptr()
    }
}

/// By the function of four lists where there are no inner triangles: the safe functions call the one of five.
pub fn check(job: &Job) -> u32 {
    let Job { points, triangles, kept, inner, table } = *job;
    let (p, t, k, i, q) = (start(points), start(triangles), start(kept), start(inner), start(table));
    let (np, nt, nk, ni, nq) = (points.len(), triangles.len(), kept.len(), inner.len(), table.len());
    // SAFETY: each pointer and length are those of a list, which the function only reads.
    unsafe {
        match inner {
            [] => c::cottontuff_check(p, np, t, nt, k, nk, q, nq),
            _ => c::cottontuff_check_inner(p, np, t, nt, k, nk, i, ni, q, nq),
        }
    }
}

/// Number, law and worst quality; by which function as in `check`.
pub fn judge(job: &Job, list: &[u8]) -> [u32; 3] {
    let Job { points, triangles, kept, inner, table } = *job;
    let (p, t, k, i, q) = (start(points), start(triangles), start(kept), start(inner), start(table));
    let (np, nt, nk, ni, nq) = (points.len(), triangles.len(), kept.len(), inner.len(), table.len());
    let (l, nl) = (start(list), list.len());
    // SAFETY: each pointer and length are those of a list, which the function only reads.
    let v = unsafe {
        match inner {
            [] => c::cottontuff_judge(p, np, t, nt, k, nk, q, nq, l, nl),
            _ => c::cottontuff_judge_inner(p, np, t, nt, k, nk, i, ni, q, nq, l, nl),
        }
    };
    [v.number, v.law, v.worst]
}

/// Number, count and worst quality; by which function as in `check`.
pub fn search(job: &Job, answer: &mut [u8]) -> [u32; 3] {
    let Job { points, triangles, kept, inner, table } = *job;
    let (p, t, k, i, q) = (start(points), start(triangles), start(kept), start(inner), start(table));
    let (np, nt, nk, ni, nq) = (points.len(), triangles.len(), kept.len(), inner.len(), table.len());
    let (a, na) = (start(answer).cast_mut(), answer.len());
    // SAFETY: each pointer and length are those of a list; the function writes to the answer alone, which no other list overlaps.
    let f = unsafe {
        match inner {
            [] => c::cottontuff_search(p, np, t, nt, k, nk, q, nq, a, na),
            _ => c::cottontuff_search_inner(p, np, t, nt, k, nk, i, ni, q, nq, a, na),
        }
    };
    [f.number, f.count, f.worst]
}

/// Number, spent, count, worst quality and trials.
pub fn search_limited(job: &Job, limit: u32, answer: &mut [u8]) -> [u32; 5] {
    let Job { points, triangles, kept, inner, table } = *job;
    let (p, t, k, i, q) = (start(points), start(triangles), start(kept), start(inner), start(table));
    let (np, nt, nk, ni, nq) = (points.len(), triangles.len(), kept.len(), inner.len(), table.len());
    let (a, na) = (start(answer).cast_mut(), answer.len());
    // SAFETY: each pointer and length are those of a list; the function writes to the answer alone, which no other list overlaps.
    let l = unsafe { c::cottontuff_search_limited(p, np, t, nt, k, nk, i, ni, q, nq, limit, a, na) };
    [l.number, l.spent, l.count, l.worst, l.trials]
}

/// Number, reason and value.
pub fn explain(job: &Job, [a, b, c, d]: [u32; 4]) -> [u32; 3] {
    let Job { points, triangles, kept, inner, table } = *job;
    let (p, t, k, i, q) = (start(points), start(triangles), start(kept), start(inner), start(table));
    let (np, nt, nk, ni, nq) = (points.len(), triangles.len(), kept.len(), inner.len(), table.len());
    // SAFETY: each pointer and length are those of a list, which the function only reads.
    let e = unsafe { c::cottontuff_explain(p, np, t, nt, k, nk, i, ni, q, nq, a, b, c, d) };
    [e.number, e.reason, e.value]
}

/// Number, count and worst quality.
pub fn remove_edge(points: &[i32], [a, b]: [u32; 2], ring: &[u8], table: &[i32], answer: &mut [u8]) -> [u32; 3] {
    let (p, r, q, to) = (start(points), start(ring), start(table), start(answer).cast_mut());
    let (np, nr, nq, room) = (points.len(), ring.len(), table.len(), answer.len());
    // SAFETY: each pointer and length are those of a list; the function writes to the answer alone, which no other list overlaps.
    let f = unsafe { c::cottontuff_remove_edge(p, np, a, b, r, nr, q, nq, to, room) };
    [f.number, f.count, f.worst]
}

pub fn measure(list: &[i32]) -> c::Measured {
    // SAFETY: the pointer and length are those of a list, which the function only reads.
    unsafe { c::cottontuff_measure(start(list), list.len()) }
}

/// Its number.
pub fn measure_table(points: &[i32], table: &mut [i32]) -> u32 {
    let (at, len) = (start(table).cast_mut(), table.len());
    // SAFETY: each pointer and length are those of a list; the function writes to the table alone, which the points do not overlap.
    unsafe { c::cottontuff_measure_table(start(points), points.len(), at, len) }
}

/// How many bytes were printed.
pub fn print(text: &[u8], out: &mut [u8]) -> usize {
    let (at, len) = (start(out).cast_mut(), out.len());
    // SAFETY: each pointer and length are those of a list; the function writes to `out` alone, which the text does not overlap.
    unsafe { c::cottontuff_print(start(text), text.len(), at, len) }
}
