//! A curve's value.

use super::refusals::{refuse, Refusal};

#[derive(Clone, Copy, Debug, PartialEq, Eq, PartialOrd, Ord)]
pub struct Point {
    pub x: i64,
    pub y: i64,
}

/// 01: "A curve's points are taken by rising X. Between neighbours the straight line's exact fraction is
/// rounded down. Off the ends, P uses the nearest two points." Under F a value off the ends is 30.
pub fn curve_at(mut points: Vec<Point>, extended: bool, x: i64) -> Result<i64, Refusal> {
    points.sort_unstable();
    let [first, .., last] = points[..] else { return refuse(30) };
    if !extended && !(first.x..=last.x).contains(&x) {
        return refuse(30);
    }
    let above = points.partition_point(|point| point.x <= x).clamp(1, points.len() - 1);
    let value = on_line(points[above - 1], points[above], x);
    match i32::try_from(value) {
        Ok(value) => Ok(i64::from(value)),
        Err(_) => refuse(31),
    }
}

fn on_line(from: Point, to: Point, x: i64) -> i128 {
    let rise = i128::from(to.y - from.y) * i128::from(x - from.x);
    i128::from(from.y) + rise.div_euclid(i128::from(to.x - from.x))
}
