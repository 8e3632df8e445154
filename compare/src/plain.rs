//! A plain reading of document 01, as a third witness on small windows: each center is held against each box, and chains are found by
//! going over the window until nothing changes. It has no grid of differences and no queue.
use crate::case::Case;
use original::walls::{CollisionBounds, WallPassage};
use original::{PixelPosition, PixelRect};

struct Span {
    left: i64,
    top: i64,
    right: i64,
    bottom: i64,
}

impl Span {
    fn of(r: PixelRect) -> Span {
        Span { left: r.left.into(), top: r.top.into(), right: r.right.into(), bottom: r.bottom.into() }
    }

    fn around(x: i64, y: i64, e: CollisionBounds) -> Span {
        Span { left: x - i64::from(e.left), top: y - i64::from(e.top), right: x + i64::from(e.right) + 1, bottom: y + i64::from(e.bottom) + 1 }
    }

    fn meets(&self, b: &Span) -> bool {
        self.left < b.right && b.left < self.right && self.top < b.bottom && b.top < self.bottom
    }
}

const STEPS: [(i64, i64); 8] = [(1, 0), (0, 1), (-1, 0), (0, -1), (1, 1), (-1, 1), (-1, -1), (1, -1)];

/// The centers of a case's window that are free, before the plan or after it.
pub struct Plain {
    window: Span,
    free: Vec<bool>,
}

impl Plain {
    pub fn of(case: &Case, after: bool) -> Plain {
        let mut boxes: Vec<Span> = Vec::new();
        for (i, cell) in case.cells.iter().enumerate() {
            if cell / 16 == 0 {
                let (x, y) = (i as i64 % i64::from(case.width) * 8, i as i64 / i64::from(case.width) * 8);
                boxes.push(Span { left: x, top: y, right: x + 8, bottom: y + 8 });
            }
        }
        boxes.extend(case.obstacles().into_iter().map(Span::of));
        if after {
            for b in &case.query.buildings {
                let center = |tile: u32, tiles: u32| 32 * i64::from(tile) + 16 * i64::from(tiles);
                boxes.push(Span::around(center(b.tile.x, b.footprint.width_tiles), center(b.tile.y, b.footprint.height_tiles), b.collision));
            }
        }
        let map = Span { left: 0, top: 0, right: 8 * i64::from(case.width), bottom: 8 * i64::from(case.height) };
        let window = Span::of(case.query.window);
        let mut free = Vec::new();
        for y in window.top..window.bottom {
            for x in window.left..window.right {
                let body = Span::around(x, y, case.query.mover);
                let inside = body.left >= map.left && body.top >= map.top && body.right <= map.right && body.bottom <= map.bottom;
                free.push(inside && !boxes.iter().any(|b| body.meets(b)));
            }
        }
        Plain { window, free }
    }

    fn place(&self, x: i64, y: i64) -> Option<usize> {
        let w = &self.window;
        (x >= w.left && x < w.right && y >= w.top && y < w.bottom).then(|| ((y - w.top) * (w.right - w.left) + x - w.left) as usize)
    }

    fn is_free(&self, x: i64, y: i64) -> bool {
        self.place(x, y).is_some_and(|p| self.free[p])
    }

    fn step(&self, x: i64, y: i64, dx: i64, dy: i64) -> bool {
        self.is_free(x, y) && self.is_free(x + dx, y + dy) && self.is_free(x + dx, y) && self.is_free(x, y + dy)
    }

    /// How many steps each center is from (x, y).
    fn distances(&self, x: i64, y: i64) -> Vec<usize> {
        let mut far = vec![usize::MAX; self.free.len()];
        if self.is_free(x, y) {
            far[self.place(x, y).unwrap()] = 0;
        }
        loop {
            let mut changed = false;
            for y in self.window.top..self.window.bottom {
                for x in self.window.left..self.window.right {
                    let here = self.place(x, y).unwrap();
                    for (dx, dy) in STEPS {
                        if self.step(x, y, dx, dy) {
                            let next = far[self.place(x + dx, y + dy).unwrap()].saturating_add(1);
                            changed |= next < far[here];
                            far[here] = far[here].min(next);
                        }
                    }
                }
            }
            if !changed {
                return far;
            }
        }
    }

    /// The first, in the order of steps, among the chains of fewest steps.
    pub fn route(&self, start: PixelPosition, end: PixelPosition) -> Option<Vec<PixelPosition>> {
        let far = self.distances(end.x.into(), end.y.into());
        let (mut x, mut y) = (i64::from(start.x), i64::from(start.y));
        let mut left = far[self.place(x, y)?];
        if left == usize::MAX {
            return None;
        }
        let mut points = vec![start];
        while left > 0 {
            let nearer = |(dx, dy): &&(i64, i64)| self.step(x, y, *dx, *dy) && far[self.place(x + dx, y + dy).unwrap()] == left - 1;
            let (dx, dy) = *STEPS.iter().find(nearer)?;
            (x, y, left) = (x + dx, y + dy, left - 1);
            points.push(PixelPosition { x: x as u32, y: y as u32 });
        }
        Some(points)
    }

    /// Document 01's route test.
    pub fn passes(&self, start: PixelPosition, end: PixelPosition, words: &[u32]) -> bool {
        let points: Vec<(i64, i64)> = words.iter().map(|w| (i64::from(w >> 16), i64::from(w & 0xFFFF))).collect();
        let ends = (points.first(), points.last());
        let is = |p: PixelPosition| (i64::from(p.x), i64::from(p.y));
        let joined = |w: &[(i64, i64)]| {
            let ((a, b), (c, d)) = (w[0], w[1]);
            (a - c).abs() <= 1 && (b - d).abs() <= 1 && (a == c || b == d || self.is_free(c, b) && self.is_free(a, d))
        };
        ends == (Some(&is(start)), Some(&is(end))) && points.iter().all(|(x, y)| self.is_free(*x, *y)) && points.windows(2).all(joined)
    }
}

/// Verdict, baseline and route.
pub fn verdict(case: &Case) -> (WallPassage, bool, Vec<PixelPosition>) {
    let (start, end) = (case.query.start, case.query.end);
    let (before, after) = (Plain::of(case, false), Plain::of(case, true));
    let baseline = before.route(start, end).is_some();
    if !after.is_free(start.x.into(), start.y.into()) {
        return (WallPassage::StartBlocked, baseline, vec![]);
    }
    if !after.is_free(end.x.into(), end.y.into()) {
        return (WallPassage::EndBlocked, baseline, vec![]);
    }
    match after.route(start, end) {
        Some(route) => (WallPassage::Open, baseline, route),
        None if !baseline => (WallPassage::AlreadyDisconnected, baseline, vec![]),
        None => (WallPassage::BlockedWithinWindow, baseline, vec![]),
    }
}
