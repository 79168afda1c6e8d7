//! Points, D, and directions that part two tetrahedra. Coordinates are in range here, so 64 bits hold every product.

pub type Point = [i64; 3];

fn minus(a: Point, b: Point) -> Point {
    [a[0] - b[0], a[1] - b[1], a[2] - b[2]]
}

fn dot(a: Point, b: Point) -> i64 {
    a[0] * b[0] + a[1] * b[1] + a[2] * b[2]
}

fn cross(a: Point, b: Point) -> Point {
    [a[1] * b[2] - a[2] * b[1], a[2] * b[0] - a[0] * b[2], a[0] * b[1] - a[1] * b[0]]
}

/// D: the determinant of b−a, c−a, d−a.
pub fn d([a, b, c, d]: [Point; 4]) -> i64 {
    dot(minus(b, a), cross(minus(c, a), minus(d, a)))
}

/// Strictly inside: on the inner side of every face of a tetrahedron whose D is positive.
pub fn inside([a, b, c, e]: [Point; 4], p: Point) -> bool {
    d([p, b, c, e]) > 0 && d([a, p, c, e]) > 0 && d([a, b, p, e]) > 0 && d([a, b, c, p]) > 0
}

fn normals([a, b, c, d]: [Point; 4]) -> [Point; 4] {
    let of = |p: Point, q: Point, r: Point| cross(minus(q, p), minus(r, p));
    [of(a, c, b), of(a, b, d), of(a, d, c), of(b, c, d)]
}

fn edges([a, b, c, d]: [Point; 4]) -> [Point; 6] {
    [minus(b, a), minus(c, a), minus(d, a), minus(c, b), minus(d, b), minus(d, c)]
}

/// The greatest value of one is at most the least of the other, this way or that.
fn parts(direction: Point, s: [Point; 4], t: [Point; 4]) -> bool {
    let along = |corners: [Point; 4]| corners.map(|p| dot(direction, p));
    let (s, t) = (along(s), along(t));
    let below = |x: [i64; 4], y: [i64; 4]| x.iter().max() <= y.iter().min();
    direction != [0, 0, 0] && (below(s, t) || below(t, s))
}

/// Law 5 for two tetrahedra: one of the eight face normals and 36 cross products of edges parts them.
pub fn apart(s: [Point; 4], t: [Point; 4]) -> bool {
    let crossed = edges(s).into_iter().flat_map(|e| edges(t).map(|f| cross(e, f)));
    normals(s).into_iter().chain(normals(t)).chain(crossed).any(|direction| parts(direction, s, t))
}
