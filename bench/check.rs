//! Times the whole check beside the original's `check_wall`, in one process and on the same inputs: milliseconds a check, and how many times
//! as fast. Both must give the same answer and the same route. See bench/check.sh.

// Of these three, which belong to the comparison and to the Rust crate, only a part is used here.
#[allow(dead_code)]
#[path = "../compare/src/case.rs"]
mod case;
#[allow(dead_code)]
#[path = "../bindings/rust/src/ffi.rs"]
mod ffi;
#[allow(dead_code)]
#[path = "../compare/src/oracle.rs"]
mod oracle;

mod common;

use case::{Case, PLAIN};
use common::{least, Random};
use ffi::{walls_c_check, CHECK_WORDS};
// For the library, which that crate links.
use khimdorae_walls as _;
use oracle::{answer_words, grid, route_words};
use original::walls::{check_wall, CollisionBounds, WallBuilding, WallPassage, WallQuery};
use original::{DepotFootprint, PixelPosition, PixelRect, TilePosition};
use std::hint::black_box;

// A window of n by n in a map of at least 64 by 64 cells, with ends in opposite corners.
fn input(n: i32, kind: &str, extent: u32, count: usize) -> Case {
    let width = n.max(64);
    let (low, high) = (64, 64 + n);
    let mut cells = vec![PLAIN; (width * width) as usize];
    if kind == "maze" {
        // Walls one cell thick and corridors three cells wide, each wall open at one end.
        for (k, x) in (low / 8 + 2..high / 8 - 1).step_by(4).enumerate() {
            let gap = if k % 2 == 0 { high / 8 - 3..high / 8 } else { low / 8..low / 8 + 3 };
            for y in (low / 8..high / 8).filter(|y| !gap.contains(y)) {
                cells[(y * width + x) as usize] = 8;
            }
        }
    }
    // All over the map, but for the window's top and right, so that a way is left; in a maze, but for the window.
    let mut random = Random::new();
    let mut place = || random.below(8 * width as usize - 3) as i32;
    let mut words = Vec::new();
    while words.len() < 4 * count {
        let (left, top) = (place(), place());
        let lane = kind == "maze" || top < low + 24 || left > high - 24;
        if !(lane && (low - 12..high + 12).contains(&left) && (low - 12..high + 12).contains(&top)) {
            words.extend([left, top, left + 3, top + 3]);
        }
    }
    let collision = if kind == "blocked" { CollisionBounds { left: 2, top: 8192, right: 2, bottom: 8192 } } else { CollisionBounds { left: 8, top: 8, right: 7, bottom: 7 } };
    let tile = if kind == "maze" { TilePosition { x: 0, y: 0 } } else { TilePosition { x: (low + n / 2) as u32 / 32, y: high as u32 / 32 } };
    let building = WallBuilding { tile, footprint: DepotFootprint { width_tiles: 1, height_tiles: 1 }, collision };
    let (near, far) = (low as u32 + 6, high as u32 - 7);
    let mover = CollisionBounds { left: extent, top: extent, right: extent, bottom: extent };
    let end = PixelPosition { x: far, y: if kind == "maze" { near } else { far } };
    let window = PixelRect { left: low, top: low, right: high, bottom: high };
    let query = WallQuery { window, start: PixelPosition { x: near, y: near }, end, mover, buildings: vec![building] };
    Case { width: width as u32, height: width as u32, cells, words, query }
}

// Times of the original and of this checker, and the verdict.
fn timed(case: &Case) -> (f64, f64, WallPassage) {
    let (grid, obstacles) = (grid(case).expect("a map"), case.obstacles());
    let theirs = || check_wall(black_box(&grid), &obstacles, &case.query).unwrap();
    let query = case.query_words();
    let [issues, base, planned, marks, parents, queue, route] = case.rooms();
    // The queue has a place for each center.
    let times = (1_000_000 / queue).clamp(1, 200);
    let (mut issues, mut base, mut planned, mut marks) = (vec![0; issues], vec![0; base], vec![0; planned], vec![0; marks]);
    let (mut parents, mut queue, mut route) = (vec![0; parents], vec![0; queue], vec![0; route]);
    let mut answer = [0; CHECK_WORDS];
    #[rustfmt::skip]
    let mut ours = || unsafe {
        walls_c_check(
            case.width, case.height, case.cells.as_ptr(), case.cells.len(), case.words.as_ptr(), case.words.len(), query.as_ptr(), query.len(), 1,
            issues.as_mut_ptr(), issues.len(), base.as_mut_ptr(), base.len(), planned.as_mut_ptr(), planned.len(), marks.as_mut_ptr(), marks.len(),
            parents.as_mut_ptr(), parents.len(), queue.as_mut_ptr(), queue.len(), route.as_mut_ptr(), route.len(), answer.as_mut_ptr(), answer.len(),
        )
    };
    assert_eq!(ours(), 0);
    let mine = least(5, times, &mut ours);
    let original = least(5, times, theirs);
    let check = theirs();
    let points = route_words(&check);
    assert_eq!((&answer[..], &route[..points.len()]), (&answer_words(Ok(&check))[..], &points[..]));
    (original / 1e6, mine / 1e6, check.passage)
}

fn main() {
    println!("{:>5}  {:<8}{:>6}{:>10}  {:<20}{:>12}{:>12}{:>8}", "side", "window", "mover", "obstacles", "verdict", "original ms", "this ms", "times");
    for n in [40, 256, 512, 1024] {
        for kind in ["open", "maze", "blocked"] {
            for extent in [0, 5] {
                for obstacles in [0, 1000] {
                    let (theirs, mine, passage) = timed(&input(n, kind, extent, obstacles));
                    println!("{n:>5}  {kind:<8}{extent:>6}{obstacles:>10}  {:<20}{theirs:>12.4}{mine:>12.4}{:>8.1}", format!("{passage:?}"), theirs / mine);
                }
            }
        }
    }
}
