//! Queries: all of some small kinds, and random ones of every size, sound and with faults around each boundary.
use crate::case::{Case, PLAIN};
use crate::random::Random;
use original::walls::{CollisionBounds, WallBuilding, WallQuery};
use original::{DepotFootprint, PixelPosition, PixelRect, TilePosition};

pub fn rect(left: i32, top: i32, right: i32, bottom: i32) -> PixelRect {
    PixelRect { left, top, right, bottom }
}

pub fn at(x: u32, y: u32) -> PixelPosition {
    PixelPosition { x, y }
}

pub fn extents(left: u32, top: u32, right: u32, bottom: u32) -> CollisionBounds {
    CollisionBounds { left, top, right, bottom }
}

fn building(x: u32, y: u32, width_tiles: u32, height_tiles: u32, collision: CollisionBounds) -> WallBuilding {
    WallBuilding { tile: TilePosition { x, y }, footprint: DepotFootprint { width_tiles, height_tiles }, collision }
}

pub fn nothing() -> WallQuery {
    WallQuery { window: rect(0, 0, 0, 0), start: at(0, 0), end: at(0, 0), mover: extents(0, 0, 0, 0), buildings: vec![] }
}

fn open(cells: u32, window: PixelRect, start: PixelPosition, end: PixelPosition) -> Case {
    Case { width: cells, height: cells, cells: vec![PLAIN; (cells * cells) as usize], words: vec![], query: WallQuery { window, start, end, ..nothing() } }
}

/// Every query of the small kinds, one after the other.
pub fn exhaustive(mut each: impl FnMut(Case)) {
    neighbourhoods(&mut each);
    obstacles_at_the_window(&mut each);
    collisions_at_the_window(&mut each);
    cells_at_the_window(&mut each);
    edges_of_the_map(&mut each);
    footprints(&mut each);
}

// The 2^8 neighbourhoods of a center, from each of the nine to each.
fn neighbourhoods(each: &mut impl FnMut(Case)) {
    for mask in 0..256u32 {
        let around: Vec<u32> = (0..9).filter(|k| *k != 4).collect();
        let blocked = around.iter().enumerate().filter(|(bit, _)| mask >> bit & 1 == 1).map(|(_, k)| (10 + k % 3, 10 + k / 3));
        let words: Vec<i32> = blocked.flat_map(|(x, y)| [x as i32, y as i32, x as i32 + 1, y as i32 + 1]).collect();
        for pair in 0..81 {
            let (s, e) = (pair / 9, pair % 9);
            let mut case = open(4, rect(10, 10, 13, 13), at(10 + s % 3, 10 + s / 3), at(10 + e % 3, 10 + e / 3));
            case.words = words.clone();
            each(case);
        }
    }
}

const MOVERS: [(u32, u32, u32, u32); 4] = [(0, 0, 0, 0), (1, 0, 0, 0), (0, 0, 2, 1), (2, 1, 1, 2)];

// An obstacle in every place from outside a window over each of its edges, held against each center.
fn obstacles_at_the_window(each: &mut impl FnMut(Case)) {
    for (w, h) in [(1, 1), (3, 2)] {
        for (left, top, m) in (6..=19).flat_map(|l| (6..=19).flat_map(move |t| MOVERS.map(|m| (l, t, m)))) {
            for center in 0..16 {
                let c = at(12 + center % 4, 12 + center / 4);
                let mut case = open(4, rect(12, 12, 16, 16), c, c);
                case.words = vec![left, top, left + w, top + h];
                case.query.mover = extents(m.0, m.1, m.2, m.3);
                each(case);
            }
        }
    }
}

// A building's collision box of every small size around (16, 16), with ends on both axes through it.
fn collisions_at_the_window(each: &mut impl FnMut(Case)) {
    for k in 0..625u32 {
        for x in 9..23 {
            let mut case = open(4, rect(11, 11, 21, 21), at(x.clamp(11, 20), 16), at(16, x.clamp(11, 20)));
            case.query.buildings = vec![building(0, 0, 1, 1, extents(k % 5, k / 5 % 5, k / 25 % 5, k / 125))];
            case.query.mover = extents(x % 2, 0, x % 3, x % 2);
            each(case);
        }
    }
}

// One unwalkable cell, and windows of 3 by 3 in every place around it.
fn cells_at_the_window(each: &mut impl FnMut(Case)) {
    for (left, top, m) in (3..=18).flat_map(|l| (3..=18).flat_map(move |t| MOVERS.map(|m| (l, t, m)))) {
        for center in 0..9 {
            let c = at(left + center % 3, top + center / 3);
            let mut case = open(4, rect(left as i32, top as i32, left as i32 + 3, top as i32 + 3), at(left, top), c);
            case.cells[5] = 8;
            case.query.mover = extents(m.0, m.1, m.2, m.3);
            each(case);
        }
    }
}

// Movers of every small size at the edges of a map of 2 by 2 cells.
fn edges_of_the_map(each: &mut impl FnMut(Case)) {
    for k in 0..256u32 {
        for place in 0..64 {
            let axis = |p: u32| if p < 4 { p } else { 8 + p };
            let mut case = open(2, rect(0, 0, 16, 16), at(axis(place % 8), axis(place / 8)), at(axis(place / 8), axis(place % 8)));
            case.query.mover = extents(k % 4, k / 4 % 4, k / 16 % 4, k / 64);
            each(case);
        }
    }
}

// An obstacle and a second building in every place around a footprint, and footprints over the map's edge and over cells of each kind.
fn footprints(each: &mut impl FnMut(Case)) {
    let lows = [29, 30, 31, 32, 33, 62, 63, 64, 65];
    for (left, top) in lows.iter().flat_map(|l| lows.map(|t| (*l, t))) {
        let mut case = open(16, rect(100, 100, 102, 102), at(100, 100), at(101, 101));
        case.words = vec![left, top, left + 2, top + 2];
        case.query.buildings = vec![building(1, 1, 1, 1, extents(16, 16, 15, 15))];
        each(case);
    }
    for k in 0..5 * 5 * 4 * 4u32 {
        let mut case = open(14, rect(100, 100, 102, 102), at(100, 100), at(101, 101));
        let other = building(k % 5, k / 5 % 5, 1 + k / 25 % 4, 1 + k / 100, extents(k % 20, 15, 15, k % 70));
        case.query.buildings = vec![building(1, 1, 2, 2, extents(31, 31, 32, 32)), other];
        each(case.clone());
        case.query.buildings.swap(0, 1);
        each(case);
    }
    for k in 0..32 * 64u32 {
        let mut case = open(8, rect(60, 60, 62, 62), at(60, 60), at(61, 61));
        case.cells[(k / 32) as usize] = (k % 32) as u8;
        case.query.buildings = vec![building(0, 1, 1, 1, extents(0, 0, 0, 0))];
        each(case);
    }
}

/// How large random maps and windows get.
#[derive(Clone, Copy)]
pub struct Size {
    pub cells: i64,
    pub window: i64,
    pub obstacles: usize,
}

pub const SMALL: Size = Size { cells: 12, window: 24, obstacles: 6 };
pub const MIDDLE: Size = Size { cells: 64, window: 96, obstacles: 40 };
pub const LARGE: Size = Size { cells: 256, window: 512, obstacles: 1000 };
pub const LARGEST: Size = Size { cells: 1024, window: 1024, obstacles: 8192 };

pub fn random_case(r: &mut Random, size: Size) -> Case {
    let (width, height) = (r.between(1, size.cells), r.between(1, size.cells));
    let cells = cells(r, width as usize, height as usize);
    let (left, right) = span(r, 8 * width, size.window);
    let (top, bottom) = span(r, 8 * height, size.window);
    let window = rect(left as i32, top as i32, right as i32, bottom as i32);
    let inside = |r: &mut Random| at(r.between(left, right - 1) as u32, r.between(top, bottom - 1) as u32);
    let start = inside(r);
    let end = if r.one_in(12) { start } else { inside(r) };
    let count = [0, 0, 1, 2, 4, size.obstacles][r.below(6)];
    let words = (0..r.between(0, count as i64)).flat_map(|_| obstacle(r, window)).collect();
    let buildings = (0..r.pick(&[0, 0, 1, 1, 1, 2, 2, 3, 3, 5, 9, 32])).map(|_| near_building(r, window)).collect();
    let mover = mover(r);
    Case { width: width as u32, height: height as u32, cells, words, query: WallQuery { window, start, end, mover, buildings } }
}

// Part of an axis, at either end of it now and then.
fn span(r: &mut Random, axis: i64, most: i64) -> (i64, i64) {
    let n = if r.one_in(3) { axis.min(most) } else { r.between(1, axis.min(most)) };
    let low = match r.below(5) {
        0 => 0,
        1 => axis - n,
        _ => r.between(0, axis - n),
    };
    (low, low + n)
}

fn cells(r: &mut Random, width: usize, height: usize) -> Vec<u8> {
    let unwalkable = r.pick(&[0, 0, 0, 0, 10, 30, 60, 300]);
    let unbuildable = r.pick(&[0, 0, 100]);
    let cell = |r: &mut Random| {
        let (walkable, buildable) = (r.below(1000) >= unwalkable, r.below(1000) >= unbuildable);
        (walkable as u8) << 4 | (buildable as u8) << 3 | (r.below(3) as u8) << 1 | r.below(2) as u8
    };
    let mut cells: Vec<u8> = (0..width * height).map(|_| cell(r)).collect();
    // A wall of cells across the map, with or without a gap.
    if r.one_in(4) {
        let (x, gap) = (r.below(width), r.below(height + 1));
        for y in (0..height).filter(|y| *y != gap) {
            cells[y * width + x] &= 15;
        }
    }
    cells
}

fn mover(r: &mut Random) -> CollisionBounds {
    let most = r.pick(&[0, 0, 0, 0, 1, 2, 4, 4, 10, 10, 8192]);
    let mut extent = || r.between(0, most) as u32;
    extents(extent(), extent(), extent(), extent())
}

// Four words of an obstacle: mostly small and near the window, now and then of any size and place.
fn obstacle(r: &mut Random, w: PixelRect) -> [i32; 4] {
    if r.one_in(40) {
        let mut side = || r.pick(&[i32::MIN, -9000, -1, 0, 1, 100, 9000, i32::MAX]);
        let (a, b, c, d) = (side(), side(), side(), side());
        if a != c && b != d {
            return [a.min(c), b.min(d), a.max(c), b.max(d)];
        }
    }
    let left = r.between(i64::from(w.left) - 8, i64::from(w.right) + 4) as i32;
    let top = r.between(i64::from(w.top) - 8, i64::from(w.bottom) + 4) as i32;
    let (wide, high) = (r.between(1, 8) as i32, r.between(1, 8) as i32);
    let ends = r.between(-1, 3) as i32;
    match r.below(6) {
        // A thin wall from one side of the window to the other, or nearly.
        0 => [left, w.top - 2, left + 1, w.bottom + ends - 2],
        1 => [w.left + 2 - ends, top, w.right + 2, top + 1],
        _ => [left, top, left + wide, top + high],
    }
}

fn near_building(r: &mut Random, w: PixelRect) -> WallBuilding {
    let mut tile = |low: i32, high: i32| r.between(i64::from(low / 32) - 3, i64::from(high / 32) + 1).max(0) as u32;
    let (x, y) = (tile(w.left, w.right), tile(w.top, w.bottom));
    let (x, y) = if r.one_in(60) { (r.between(0, 67_200_000) as u32, y) } else { (x, y) };
    let (wide, high) = (r.between(1, 4) as u32, r.between(1, 4) as u32);
    let collision = match r.below(6) {
        // As games have it: a little smaller than the footprint.
        0 => {
            let gap = r.between(0, 6) as u32;
            extents(16 * wide - gap, 16 * high - gap, 16 * wide - gap / 2 - 1, 16 * high - gap / 2 - 1)
        }
        // A thin wall across its center.
        1 | 2 => extents(r.between(0, 1) as u32, r.between(0, 200) as u32, r.between(0, 1) as u32, r.between(0, 200) as u32),
        3 | 4 => extents(r.between(0, 200) as u32, r.between(0, 1) as u32, r.between(0, 200) as u32, r.between(0, 1) as u32),
        _ => extents(r.between(0, 30) as u32, r.between(0, 30) as u32, r.between(0, 30) as u32, r.between(0, 30) as u32),
    };
    building(x, y, wide, high, collision)
}

/// A map longer than a window may be.
pub fn strip(r: &mut Random) -> Case {
    let mut case = random_case(r, SMALL);
    let (long, short) = (r.between(120, 400), r.between(1, 3));
    let (width, height) = if r.one_in(2) { (long, short) } else { (short, long) };
    let axis = |r: &mut Random, n: i64| (8 * n).min(r.between(1020, 1028)) as i32;
    (case.width, case.height) = (width as u32, height as u32);
    case.cells = vec![PLAIN; (width * height) as usize];
    case.query.window = rect(0, 0, axis(r, width), axis(r, height));
    (case.query.start, case.query.end) = (at(0, 0), at(case.query.window.right as u32 - 1, case.query.window.bottom as u32 - 1));
    case
}

/// Changes one thing so that it stands at a boundary, on either side of it.
pub fn fault(r: &mut Random, case: &mut Case) {
    let q = &mut case.query;
    let (right, bottom) = (8 * case.width as i32, 8 * case.height.min(2000) as i32);
    match r.below(16) {
        0 => case.width = r.pick(&[0, 1, case.width.wrapping_add(1), 1024, 1025, u32::MAX]),
        1 => case.height = r.pick(&[0, 1, case.height.wrapping_add(1), 1024, 1025, u32::MAX]),
        2 => {
            let n = case.cells.len();
            case.cells.resize(r.pick(&[0, n.saturating_sub(1), n + 1]), PLAIN);
        }
        3 | 4 if !case.cells.is_empty() => {
            let i = r.below(case.cells.len());
            case.cells[i] = r.pick(&[6, 7, 22, 30, 31, 32, 33, 255]);
        }
        5 => {
            let n = case.words.len();
            case.words.resize(r.pick(&[n + 1, n + 2, n + 3, n.saturating_sub(1)]), 7);
        }
        6 if case.words.len() >= 4 => {
            let i = r.below(case.words.len() / 4) * 4 + r.below(2);
            let high = case.words[i + 2];
            case.words[i] = r.pick(&[high.saturating_sub(1), high, high.saturating_add(1), i32::MAX]);
        }
        7 => {
            let extent = r.pick(&[8191, 8192, 8193, u32::MAX]);
            *r.pick_mut(&mut [&mut q.mover.left, &mut q.mover.top, &mut q.mover.right, &mut q.mover.bottom]) = extent;
        }
        8 => {
            let b = q.buildings.first().copied().unwrap_or(building(0, 0, 1, 1, extents(0, 0, 0, 0)));
            q.buildings.resize(r.pick(&[0, 31, 32, 33, 40, 63, 64, 100]), b);
        }
        9 => q.window.left = r.pick(&[-1, 0, q.window.right - 1, q.window.right, i32::MIN, i32::MAX]),
        10 => q.window.top = r.pick(&[-1, 0, q.window.bottom - 1, q.window.bottom, i32::MIN, i32::MAX]),
        11 => q.window.right = r.pick(&[right, right.saturating_add(1), q.window.left, i32::MAX]),
        12 => q.window.bottom = r.pick(&[bottom, bottom.saturating_add(1), q.window.top, i32::MAX]),
        13 => {
            let w = q.window;
            let x = r.pick(&[w.left.wrapping_sub(1), w.left, w.right.wrapping_sub(1), w.right, -1]) as u32;
            let y = r.pick(&[w.top.wrapping_sub(1), w.top, w.bottom.wrapping_sub(1), w.bottom, -1]) as u32;
            let p = if r.one_in(2) { at(x, q.start.y) } else { at(q.end.x, y) };
            *r.pick_mut(&mut [&mut q.start, &mut q.end]) = p;
        }
        _ if !q.buildings.is_empty() => {
            let i = r.below(q.buildings.len());
            faulty_building(r, &mut q.buildings[i]);
        }
        _ => {}
    }
}

fn faulty_building(r: &mut Random, b: &mut WallBuilding) {
    match r.below(4) {
        0 => {
            let tiles = r.pick(&[0, 1, 255, 256, 257, u32::MAX]);
            *r.pick_mut(&mut [&mut b.footprint.width_tiles, &mut b.footprint.height_tiles]) = tiles;
        }
        1 => {
            let extent = r.pick(&[8191, 8192, 8193, u32::MAX]);
            *r.pick_mut(&mut [&mut b.collision.left, &mut b.collision.top, &mut b.collision.right, &mut b.collision.bottom]) = extent;
        }
        // Where a side comes to the end of i32: 2^31 is 67,108,864 tiles.
        2 => {
            let near = r.between(67_108_864 - 300, 67_108_864 + 2) as u32;
            let tile = r.pick(&[near, 67_108_862, 67_108_863, 1 << 27, u32::MAX]);
            *r.pick_mut(&mut [&mut b.tile.x, &mut b.tile.y]) = tile;
        }
        // To the pixel: the collision box ends 3 below to 3 above 2^31.
        _ => {
            b.footprint.width_tiles = 1 + r.below(2) as u32;
            b.tile.x = 67_108_864 - b.footprint.width_tiles - r.below(2) as u32;
            let center = 32 * i64::from(b.tile.x) + 16 * i64::from(b.footprint.width_tiles);
            b.collision.right = (2_147_483_648 - center + r.between(-4, 2)).clamp(0, 8192) as u32;
        }
    }
}

/// More obstacles than a query may have, or just as many.
pub fn crowd(r: &mut Random) -> Case {
    let mut case = random_case(r, SMALL);
    let n = r.pick(&[8191, 8192, 8192, 8193, 9000, 16383]);
    let window = case.query.window;
    case.words = (0..n).flat_map(|_| obstacle(r, window)).collect();
    case
}

/// A copy of packed bytes with something changed, cut off or added.
pub fn damaged(r: &mut Random, bytes: &[u8]) -> Vec<u8> {
    let mut copy = bytes.to_vec();
    match r.below(6) {
        0 => copy.truncate(r.below(copy.len())),
        1 => copy.truncate(copy.len() - 1),
        2 => copy.extend((0..1 + r.below(3)).map(|_| r.pick(&[0, 1, 255]))),
        3 => *copy.last_mut().unwrap() ^= 1 << r.below(8),
        4 => copy[r.below(5)] ^= 1 << r.below(8),
        _ => {
            for _ in 0..1 + r.below(4) {
                let i = r.below(copy.len());
                copy[i] ^= 1 << r.below(8);
            }
        }
    }
    copy
}
