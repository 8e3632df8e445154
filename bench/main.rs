// Times the search against the original's `route`, and the marks against its stamps and `blocked_centers`, in one process:
// processor nanoseconds a center, and how many times as fast. Both must give the same route and the same marks, and the
// working areas must end as zeros. See bench/run.sh.
mod common;

use common::{least, Random};
use std::collections::VecDeque;
use std::hint::black_box;

include!(concat!(env!("BENCH_DIR"), "/original.rs"));

// What the original's functions take, with the fields that they read and the sizes that they have there.
#[derive(Clone, Copy)]
struct PixelRect {
    left: i32,
    top: i32,
    right: i32,
    bottom: i32,
}

#[derive(Clone, Copy)]
struct CollisionBounds {
    left: u32,
    top: u32,
    right: u32,
    bottom: u32,
}

// Of its fields only the first is read.
#[allow(dead_code)]
struct TerrainCell {
    walkable: bool,
    terrain_buildable: bool,
    elevation: u8,
    ramp: bool,
}

struct TerrainGrid {
    width: u32,
    cells: Vec<TerrainCell>,
}

impl TerrainGrid {
    fn width(&self) -> u32 {
        self.width
    }

    fn cells(&self) -> &[TerrainCell] {
        &self.cells
    }
}

extern "C" {
    fn bench_c_route(
        marks: *const u8, marks_len: usize, w: usize, h: usize, parents: *mut u32, parents_len: usize, queue: *mut u32, queue_len: usize, out: *mut u32, out_len: usize,
        start_x: u32, start_y: u32, end_x: u32, end_y: u32,
    ) -> usize;
    fn bench_c_repeat(
        marks: *const u8, marks_len: usize, w: usize, h: usize, parents: *mut u32, parents_len: usize, queue: *mut u32, queue_len: usize, out: *mut u32, out_len: usize,
        start_x: u32, start_y: u32, end_x: u32, end_y: u32, times: usize,
    ) -> usize;
    fn bench_c_marks(
        width: u32, height: u32, cells: *const u8, cells_len: usize, words: *const i32, words_len: usize, left: usize, top: usize, w: usize, h: usize, extent: u32,
        plan: *const u32, plan_len: usize, base: *mut u32, base_len: usize, planned: *mut u32, planned_len: usize, marks: *mut u8, marks_len: usize,
    ) -> bool;
}

struct Case {
    blocked: Vec<bool>,
    start: usize,
    end: usize,
}

fn case(kind: &str, n: usize) -> Case {
    let mut c = Case { blocked: vec![false; n * n], start: 0, end: n * n - 1 };
    let mut random = Random::new();
    let b = &mut c.blocked;
    let mut scatter = |percent: usize| {
        for cell in b.iter_mut() {
            *cell = random.below(100) < percent;
        }
        // A free rim, so that the ends are joined.
        for i in 0..n {
            for p in [i, i + n, (n - 1) * n + i, (n - 2) * n + i, i * n, i * n + 1, i * n + n - 1, i * n + n - 2] {
                b[p] = false;
            }
        }
    };
    match kind {
        "open" => {}
        "5% blocked" => scatter(5),
        "30% blocked" => scatter(30),
        "rectangles" => {
            for _ in 0..40 {
                let (x, y, side) = (random.below(n), random.below(n), n / 16 + 1);
                for row in y..(y + side).min(n - 2) {
                    for column in x..(x + side).min(n - 2) {
                        b[row * n + column] = true;
                    }
                }
            }
        }
        // Corridors one wide, walls one wide, each wall open at one end.
        "maze of rows" | "maze of columns" => {
            for wall in (1..n - 1).step_by(2) {
                for i in 0..n {
                    let open = if wall / 2 % 2 == 0 { n - 1 } else { 0 };
                    let p = if kind == "maze of rows" { wall * n + i } else { i * n + wall };
                    b[p] = i != open;
                }
            }
        }
        "walled-in end" => {
            for p in [(n - 2) * n + n - 1, (n - 1) * n + n - 2, (n - 2) * n + n - 2] {
                b[p] = true;
            }
        }
        "blocked end" => b[n * n - 1] = true,
        "ten away" => c.end = 10,
        _ => unreachable!(),
    }
    if kind != "blocked end" {
        b[c.start] = false;
        b[c.end] = false;
    }
    c
}

// A map of `side` cells a side, a tenth of them unwalkable, with obstacles and a plan, and a window of `n` centers a side in its middle.
struct Site {
    side: usize,
    cells: Vec<u8>,
    grid: TerrainGrid,
    obstacles: Vec<PixelRect>,
    buildings: Vec<PixelRect>,
    plan: Vec<u32>,
    window: PixelRect,
    mover: CollisionBounds,
}

fn site(side: usize, n: usize, obstacles: usize, extent: u32) -> Site {
    let mut random = Random::new();
    let cells: Vec<u8> = (0..side * side).map(|_| if random.below(10) == 0 { 8 } else { 24 }).collect();
    let grid = TerrainGrid { width: side as u32, cells: cells.iter().map(|c| TerrainCell { walkable: *c >= 16, terrain_buildable: true, elevation: 0, ramp: false }).collect() };
    let obstacles = (0..obstacles)
        .map(|_| {
            let (left, top) = (random.below(8 * side) as i32, random.below(8 * side) as i32);
            PixelRect { left, top, right: left + 16, bottom: top + 16 }
        })
        .collect();
    let corner = (8 * side - n) / 2;
    let window = PixelRect { left: corner as i32, top: corner as i32, right: (corner + n) as i32, bottom: (corner + n) as i32 };
    // 32 buildings of 2 by 2 tiles in a row, from the window's corner on.
    let (mut plan, mut buildings) = (Vec::new(), Vec::new());
    for i in 0..32 {
        let tile = corner / 32;
        plan.extend([(tile + i) as u32, tile as u32, 2, 2, 24, 24, 23, 23]);
        let (x, y) = (32 * (tile + i) as i32 + 32, 32 * tile as i32 + 32);
        buildings.push(PixelRect { left: x - 24, top: y - 24, right: x + 24, bottom: y + 24 });
    }
    let mover = CollisionBounds { left: extent, top: extent, right: extent, bottom: extent };
    Site { side, cells, grid, obstacles, buildings, plan, window, mover }
}

// What the original does between its checks and its searches.
fn original_marks(s: &Site, n: usize) -> (Vec<bool>, Vec<bool>) {
    let map = 8 * s.side as i64;
    let mut base = DifferenceGrid::new(n, n);
    stamp_terrain_blockers(&s.grid, s.window, s.mover, &mut base);
    for obstacle in &s.obstacles {
        stamp_expanded(*obstacle, s.window, s.mover, &mut base);
    }
    let base = base.finish();
    let mut plan = DifferenceGrid::new(n, n);
    for building in &s.buildings {
        stamp_expanded(*building, s.window, s.mover, &mut plan);
    }
    let plan = plan.finish();
    let before = blocked_centers(&base, n, n, s.window, map, map, s.mover, None);
    let after = blocked_centers(&base, n, n, s.window, map, map, s.mover, Some(&plan));
    (before, after)
}

fn time_marks() {
    println!("{:<12}{:>6}{:>8}{:>11}{:>14}{:>14}", "map", "side", "mover", "obstacles", "original", "mark_centers");
    for (side, n) in [(64usize, 40usize), (1024, 40), (256, 256), (1024, 256), (128, 1024), (1024, 1024)] {
        for extent in [0u32, 5] {
            for count in [0usize, 1000] {
                let s = site(side, n, count, extent);
                let words: Vec<i32> = s.obstacles.iter().flat_map(|o| [o.left, o.top, o.right, o.bottom]).collect();
                let room = (n + 1) * (n + 1);
                let (mut base, mut planned, mut marks) = (vec![7u32; room], vec![9u32; room], vec![3u8; 2 * n * n]);
                let corner = s.window.left as usize;
                #[rustfmt::skip]
                let mut once = || unsafe {
                    bench_c_marks(
                        side as u32, side as u32, s.cells.as_ptr(), s.cells.len(), words.as_ptr(), words.len(), corner, corner, n, n, extent,
                        s.plan.as_ptr(), s.plan.len(), base.as_mut_ptr(), room, planned.as_mut_ptr(), room, marks.as_mut_ptr(), 2 * n * n,
                    )
                };
                assert!(once());
                let times = (4_000_000 / (n * n + side * side)).clamp(3, 1000);
                let theirs = least(7, times, || original_marks(black_box(&s), n));
                let ours = least(7, times, &mut once);
                let (before, after) = original_marks(&s, n);
                assert!(before.iter().chain(&after).zip(&marks).all(|(b, m)| *b as u8 == *m), "{side} {n} {extent} {count}");
                assert!(base.iter().chain(&planned).all(|x| *x == 0), "{side} {n} {extent} {count}");
                println!("{:<12}{:>6}{:>8}{:>11}{:>11.3} ms{:>11.3} ms{:>7.1}x", format!("{side} cells"), n, extent, count, theirs / 1e6, ours / 1e6, theirs / ours);
            }
        }
    }
}

fn time_routes() {
    println!("{:<16}{:>6}{:>12}{:>12}{:>8}{:>12}{:>8}", "case", "side", "original", "route", "", "find_route", "");
    let kinds = ["open", "5% blocked", "30% blocked", "rectangles", "maze of rows", "maze of columns", "walled-in end", "blocked end", "ten away"];
    for kind in kinds {
        for n in [40usize, 256, 1024] {
            let c = case(kind, n);
            let cells = n * n;
            let marks: Vec<u8> = c.blocked.iter().map(|x| *x as u8).collect();
            let (mut parents, mut queue, mut out) = (vec![7u32; cells], vec![9u32; cells], vec![0u32; cells]);
            let (sx, sy, ex, ey) = ((c.start % n) as u32, (c.start / n) as u32, (c.end % n) as u32, (c.end / n) as u32);
            let wanted = route(&c.blocked, n, n, c.start, c.end).unwrap_or_default();
            let mut once =
                || unsafe { bench_c_route(marks.as_ptr(), cells, n, n, parents.as_mut_ptr(), cells, queue.as_mut_ptr(), cells, out.as_mut_ptr(), cells, sx, sy, ex, ey) };
            assert_eq!(once(), wanted.len(), "{kind} {n}");
            let times = (4_000_000 / cells).clamp(3, 1000);
            let theirs = least(7, times, || route(black_box(&c.blocked), n, n, c.start, c.end));
            let ours = least(7, times, &mut once);
            let words: Vec<u32> = wanted.iter().map(|p| ((p % n) * 65536 + p / n) as u32).collect();
            assert_eq!(&out[..wanted.len()], &words[..], "{kind} {n}");
            let many = times.max(100);
            let repeat =
                || unsafe { bench_c_repeat(marks.as_ptr(), cells, n, n, parents.as_mut_ptr(), cells, queue.as_mut_ptr(), cells, out.as_mut_ptr(), cells, sx, sy, ex, ey, many) };
            let again = least(7, 1, repeat) / many as f64;
            assert_eq!(&out[..wanted.len()], &words[..], "{kind} {n}");
            assert!(parents.iter().chain(&queue).all(|x| *x == 0), "{kind} {n}");
            let a = cells as f64;
            println!("{:<16}{:>6}{:>12.3}{:>12.3}{:>7.1}x{:>12.3}{:>7.1}x", kind, n, theirs / a, ours / a, theirs / ours, again / a, theirs / again);
        }
    }
}

fn main() {
    time_marks();
    println!();
    time_routes();
}
