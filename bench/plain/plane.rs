//! The loops of `ff_timing` in plain Rust, written for this benchmark: the same points, lines and places, with the
//! formulas that a plain program has for them. The word `orient`, `crossing` or `side_of` says which.

#[derive(Clone, Copy, PartialEq)]
struct Pt {
    x: i64,
    y: i64,
}

#[derive(Clone, Copy)]
struct Line {
    a: i64,
    b: i64,
    c: i64,
}

#[derive(Clone, Copy)]
struct Place {
    x: i128,
    y: i128,
    w: i128,
}

fn orient(p: Pt, q: Pt, r: Pt) -> i64 {
    (q.x - p.x) * (r.y - p.y) - (q.y - p.y) * (r.x - p.x)
}

fn through(p: Pt, q: Pt) -> Line {
    let (a, b) = (p.y - q.y, q.x - p.x);
    Line { a, b, c: a * p.x + b * p.y }
}

fn side_of(l: Line, s: Place) -> i128 {
    l.a as i128 * s.x + l.b as i128 * s.y - l.c as i128 * s.w
}

fn coordinate(n: u64) -> i64 {
    (n.wrapping_mul(0x9E37_79B9_7F4A_7C15) >> 44) as i64 - (1 << 19)
}

fn points_of(count: u64) -> Vec<Pt> {
    (0..count).map(|n| Pt { x: coordinate(n), y: coordinate(n.wrapping_mul(n)) }).collect()
}

fn are_crossing(a: Pt, b: Pt, c: Pt, d: Pt) -> bool {
    orient(a, b, c).signum() != orient(a, b, d).signum() && orient(c, d, a).signum() != orient(c, d, b).signum()
}

fn main() {
    let points = points_of(10_000);
    let word = std::env::args().nth(1).unwrap_or_default();
    let mut count = 0u64;
    if word == "orient" {
        for ends in points.windows(2) {
            for &p in &points {
                count += (orient(ends[0], ends[1], p) > 0) as u64;
            }
        }
    }
    if word == "crossing" {
        let points = points_of(8193);
        for (i, ends) in points.windows(2).enumerate() {
            for others in points[i + 1..].windows(2) {
                count += are_crossing(ends[0], ends[1], others[0], others[1]) as u64;
            }
        }
    }
    if word == "side_of" {
        let places: Vec<Place> = points.iter().map(|p| Place { x: p.x as i128, y: p.y as i128, w: 1 }).collect();
        for ends in points.windows(2) {
            if ends[0] != ends[1] {
                let line = through(ends[0], ends[1]);
                for &s in &places {
                    count += (side_of(line, s) > 0) as u64;
                }
            }
        }
    }
    println!("{count}");
}
