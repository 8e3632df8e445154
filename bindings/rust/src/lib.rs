//! Whether a wall of buildings on a strategy-game map lets a unit through.
//!
//! The answers are those of the crate `walls_c`, which is proved to follow its specification; this crate lends it memory and turns its
//! words into Rust types. Names, fields and the order of refusals are those of the module `walls` of broodmap-analysis.
//!
//! ```
//! use khimdorae_walls::*;
//!
//! let grid = TerrainGrid::open(8, 8);
//! let pylon = WallBuilding {
//!     tile: TilePosition { x: 0, y: 0 },
//!     footprint: DepotFootprint { width_tiles: 1, height_tiles: 1 },
//!     collision: CollisionBounds { left: 16, top: 16, right: 15, bottom: 15 },
//! };
//! let query = WallQuery {
//!     window: PixelRect { left: 30, top: 30, right: 36, bottom: 36 },
//!     start: PixelPosition { x: 31, y: 32 },
//!     end: PixelPosition { x: 32, y: 31 },
//!     mover: CollisionBounds::default(),
//!     buildings: vec![pylon],
//! };
//! let check = check_wall(&grid, &[], &query)?;
//! assert_eq!(check.passage, WallPassage::Open);
//! assert_eq!(check.route.len(), 3);
//! # Ok::<(), WallError>(())
//! ```
mod error;
// A packed query is read and then checked, so its own call is not used here.
#[allow(dead_code)]
mod ffi;

pub use error::{WallEndpoint, WallError};
use ffi::{CHECK_WORDS, QUERY_WORDS, READ_WORDS, TEST_WORDS};

/// Holds left ≤ x < right and top ≤ y < bottom.
#[derive(Debug, Copy, Clone, Default, Eq, PartialEq, Hash)]
pub struct PixelRect {
    pub left: i32,
    pub top: i32,
    pub right: i32,
    pub bottom: i32,
}

#[derive(Debug, Copy, Clone, Default, Eq, PartialEq, Hash)]
pub struct PixelPosition {
    pub x: u32,
    pub y: u32,
}

#[derive(Debug, Copy, Clone, Default, Eq, PartialEq, Hash)]
pub struct TilePosition {
    pub x: u32,
    pub y: u32,
}

#[derive(Debug, Copy, Clone, Default, Eq, PartialEq, Hash)]
pub struct DepotFootprint {
    pub width_tiles: u32,
    pub height_tiles: u32,
}

/// Extents around a center (x, y), which occupies [x − left, x + right + 1) by [y − top, y + bottom + 1).
#[derive(Debug, Copy, Clone, Default, Eq, PartialEq, Hash)]
pub struct CollisionBounds {
    pub left: u32,
    pub top: u32,
    pub right: u32,
    pub bottom: u32,
}

/// One proposed building.
#[derive(Debug, Copy, Clone, Default, Eq, PartialEq, Hash)]
pub struct WallBuilding {
    pub tile: TilePosition,
    pub footprint: DepotFootprint,
    pub collision: CollisionBounds,
}

/// What is asked: whether a mover gets from start to end inside the window, past these buildings.
#[derive(Debug, Clone, Default, Eq, PartialEq, Hash)]
pub struct WallQuery {
    pub window: PixelRect,
    pub start: PixelPosition,
    pub end: PixelPosition,
    pub mover: CollisionBounds,
    pub buildings: Vec<WallBuilding>,
}

/// What is known of a cell of 8 by 8 pixels.
#[derive(Debug, Copy, Clone, Eq, PartialEq, Hash)]
pub struct TerrainCell {
    pub walkable: bool,
    pub terrain_buildable: bool,
    /// 0, 1 or 2. Anything above is refused by a check, as 3.
    pub elevation: u8,
    pub ramp: bool,
}

impl TerrainCell {
    /// The cell as a byte below 32: walkable, buildable, elevation (2 bits), ramp, the most significant first.
    pub fn byte(self) -> u8 {
        (self.walkable as u8) << 4 | (self.terrain_buildable as u8) << 3 | self.elevation.min(3) << 1 | self.ramp as u8
    }
}

/// A map: its cells row by row. A check looks at its size and its cells, and refuses what is no map.
#[derive(Debug, Clone, Eq, PartialEq, Hash)]
pub struct TerrainGrid {
    pub width: u32,
    pub height: u32,
    /// A byte for each cell, as [`TerrainCell::byte`] gives it.
    pub cells: Vec<u8>,
}

impl TerrainGrid {
    pub fn from_cells(width: u32, height: u32, cells: &[TerrainCell]) -> TerrainGrid {
        TerrainGrid { width, height, cells: cells.iter().map(|cell| cell.byte()).collect() }
    }

    /// A map of plain ground, walkable and buildable everywhere.
    pub fn open(width: u32, height: u32) -> TerrainGrid {
        TerrainGrid { width, height, cells: vec![24; width as usize * height as usize] }
    }
}

/// What is wrong with a building's place.
#[derive(Debug, Copy, Clone, Eq, PartialEq, Hash)]
pub enum PlacementIssue {
    /// The footprint or the collision box leaves the map.
    OutOfMap,
    /// A cell under the footprint is unwalkable or unbuildable.
    UnbuildableTerrain,
    /// The footprint meets this obstacle.
    OverlapsObstacle { index: usize },
    /// The footprint meets the footprint of this other building.
    OverlapsBuilding { index: usize },
}

/// A building's two boxes and its issues.
#[derive(Debug, Clone, Eq, PartialEq, Hash)]
pub struct WallPlacement {
    pub footprint: PixelRect,
    pub collision: PixelRect,
    pub issues: Vec<PlacementIssue>,
}

/// The verdict, after the plan: the first of these that applies.
#[derive(Debug, Copy, Clone, Eq, PartialEq, Hash)]
pub enum WallPassage {
    /// The start's center is blocked.
    StartBlocked,
    /// The end's center is blocked.
    EndBlocked,
    /// A route is left inside the window.
    Open,
    /// The ends were disconnected before the buildings were added.
    AlreadyDisconnected,
    /// The buildings disconnect the ends inside the window.
    BlockedWithinWindow,
}

/// What a check answers.
#[derive(Debug, Clone, Eq, PartialEq, Hash)]
pub struct WallCheck {
    pub placements: Vec<WallPlacement>,
    pub passage: WallPassage,
    /// Whether the ends were joined before the buildings were added.
    pub baseline_passable: bool,
    /// The route, both ends among it, where the verdict is Open: of the shortest, the first in the order of steps.
    pub route: Vec<PixelPosition>,
    pub window: PixelRect,
}

/// A packed query, read.
#[derive(Debug, Clone, Eq, PartialEq, Hash)]
pub struct PackedQuery {
    pub grid: TerrainGrid,
    pub obstacles: Vec<PixelRect>,
    pub query: WallQuery,
}

// More are refused, and need no words.
const MAX_BUILDINGS: usize = 32;

/// Checks static building placement and a bounded passage.
pub fn check_wall(grid: &TerrainGrid, obstacles: &[PixelRect], query: &WallQuery) -> Result<WallCheck, WallError> {
    Checker::default().check_wall(grid, obstacles, query)
}

/// Whether a list of points is a way from start to end after the plan: it begins and ends there, every point is free in the window, and
/// neighbours differ by at most one on each axis, with both side centers free where they differ on both.
pub fn test_route(grid: &TerrainGrid, obstacles: &[PixelRect], query: &WallQuery, list: &[PixelPosition]) -> Result<bool, WallError> {
    Checker::default().test_route(grid, obstacles, query, list)
}

/// Reads a packed query. Of more than 32 buildings the first 32 are read, and a check of them is not the check of the query: see
/// [`check_packed`].
pub fn read_packed(packed: &[u8]) -> Result<PackedQuery, WallError> {
    let read = read_words(packed)?;
    Ok(PackedQuery { obstacles: read.obstacles.chunks_exact(4).map(|w| rect([w[0], w[1], w[2], w[3]])).collect(), query: query_of(&read.query, read.buildings), grid: read.grid })
}

/// Checks a packed query.
pub fn check_packed(packed: &[u8]) -> Result<WallCheck, WallError> {
    Checker::default().check_packed(packed)
}

/// Keeps the memory that a check works in, for the next check.
#[derive(Debug, Clone, Default)]
pub struct Checker {
    issues: Vec<u32>,
    base: Vec<u32>,
    planned: Vec<u32>,
    marks: Vec<u8>,
    parents: Vec<u32>,
    queue: Vec<u32>,
    route: Vec<u32>,
}

impl Checker {
    /// See [`check_wall`].
    pub fn check_wall(&mut self, grid: &TerrainGrid, obstacles: &[PixelRect], query: &WallQuery) -> Result<WallCheck, WallError> {
        self.check(grid, &obstacle_words(obstacles), &query_words(query), query.window, query.buildings.len())
    }

    /// See [`check_packed`].
    pub fn check_packed(&mut self, packed: &[u8]) -> Result<WallCheck, WallError> {
        let read = read_words(packed)?;
        self.check(&read.grid, &read.obstacles, &read.query, window_of(&read.query), read.buildings)
    }

    /// See [`test_route`].
    pub fn test_route(&mut self, grid: &TerrainGrid, obstacles: &[PixelRect], query: &WallQuery, list: &[PixelPosition]) -> Result<bool, WallError> {
        let obstacles = obstacle_words(obstacles);
        let words = query_words(query);
        let list: Vec<u32> = list.iter().map(|p| point_word(*p)).collect();
        let mut answer = [0; TEST_WORDS];
        self.lend(query.window, obstacles.len() / 4, query.buildings.len());
        // What the header asks: each pointer comes with its slice's length, and the areas that are written are apart.
        #[rustfmt::skip]
        let number = unsafe {
            ffi::walls_c_test_route(
                grid.width, grid.height, grid.cells.as_ptr(), grid.cells.len(), obstacles.as_ptr(), obstacles.len(), words.as_ptr(), words.len(),
                query.buildings.len(), list.as_ptr(), list.len(), self.base.as_mut_ptr(), self.base.len(), self.planned.as_mut_ptr(), self.planned.len(),
                self.marks.as_mut_ptr(), self.marks.len(), answer.as_mut_ptr(), answer.len(),
            )
        };
        accepted(number, &answer)?;
        Ok(answer[5] != 0)
    }

    fn check(&mut self, grid: &TerrainGrid, obstacles: &[i32], query: &[u64], window: PixelRect, buildings: usize) -> Result<WallCheck, WallError> {
        let mut answer = [0; CHECK_WORDS];
        self.lend(window, obstacles.len() / 4, buildings);
        // What the header asks: each pointer comes with its slice's length, and the areas that are written are apart.
        #[rustfmt::skip]
        let number = unsafe {
            ffi::walls_c_check(
                grid.width, grid.height, grid.cells.as_ptr(), grid.cells.len(), obstacles.as_ptr(), obstacles.len(), query.as_ptr(), query.len(), buildings,
                self.issues.as_mut_ptr(), self.issues.len(), self.base.as_mut_ptr(), self.base.len(), self.planned.as_mut_ptr(), self.planned.len(),
                self.marks.as_mut_ptr(), self.marks.len(), self.parents.as_mut_ptr(), self.parents.len(), self.queue.as_mut_ptr(), self.queue.len(),
                self.route.as_mut_ptr(), self.route.len(), answer.as_mut_ptr(), answer.len(),
            )
        };
        accepted(number, &answer)?;
        Ok(self.answered(&answer, buildings))
    }

    // Makes each area at least as long as a check needs it, up to the caps: what is above them is refused before any area is looked at.
    fn lend(&mut self, window: PixelRect, obstacles: usize, buildings: usize) {
        let axis = |low: i32, high: i32| (i64::from(high) - i64::from(low)).clamp(0, 1024) as usize;
        let (w, h) = (axis(window.left, window.right), axis(window.top, window.bottom));
        let (n, b) = (obstacles.min(8192), buildings.min(MAX_BUILDINGS));
        grow(&mut self.issues, b * (n + b + 1));
        grow(&mut self.base, (w + 1) * (h + 1));
        grow(&mut self.planned, (w + 1) * (h + 1));
        grow(&mut self.marks, 2 * w * h);
        for area in [&mut self.parents, &mut self.queue, &mut self.route] {
            grow(area, w * h);
        }
    }

    // An accepted check's words, with what stands in the areas of issues and route.
    fn answered(&self, answer: &[u64; CHECK_WORDS], buildings: usize) -> WallCheck {
        let mut issues = self.issues.iter();
        let placements = answer[12..]
            .chunks_exact(9)
            .take(buildings)
            .map(|p| WallPlacement {
                footprint: rect_of(&p[0..4]),
                collision: rect_of(&p[4..8]),
                issues: issues.by_ref().take(p[8] as usize).map(|word| issue_of(*word)).collect(),
            })
            .collect();
        WallCheck {
            placements,
            passage: [WallPassage::StartBlocked, WallPassage::EndBlocked, WallPassage::Open, WallPassage::AlreadyDisconnected, WallPassage::BlockedWithinWindow]
                [answer[5] as usize],
            baseline_passable: answer[6] != 0,
            route: self.route[..answer[7] as usize].iter().map(|word| PixelPosition { x: word >> 16, y: word & 0xFFFF }).collect(),
            window: rect_of(&answer[8..12]),
        }
    }
}

fn grow<T: Copy + Default>(area: &mut Vec<T>, n: usize) {
    if area.len() < n {
        area.resize(n, T::default());
    }
}

fn accepted(number: u64, answer: &[u64]) -> Result<(), WallError> {
    match number {
        0 => Ok(()),
        _ => Err(WallError::of(number, [answer[1], answer[2], answer[3], answer[4]])),
    }
}

fn obstacle_words(obstacles: &[PixelRect]) -> Vec<i32> {
    obstacles.iter().flat_map(|r| [r.left, r.top, r.right, r.bottom]).collect()
}

// The words of the window, the ends, the mover and the first 32 buildings.
fn query_words(query: &WallQuery) -> Vec<u64> {
    let (w, s, e, m) = (query.window, query.start, query.end, query.mover);
    let sides = [w.left, w.top, w.right, w.bottom].map(|side| u64::from(side as u32));
    let mut words = sides.to_vec();
    words.extend([s.x, s.y, e.x, e.y, m.left, m.top, m.right, m.bottom].map(u64::from));
    for b in query.buildings.iter().take(MAX_BUILDINGS) {
        let (t, f, c) = (b.tile, b.footprint, b.collision);
        words.extend([t.x, t.y, f.width_tiles, f.height_tiles, c.left, c.top, c.right, c.bottom].map(u64::from));
    }
    words
}

// A point outside 16 bits is in no window, and so is (65535, 65535).
fn point_word(p: PixelPosition) -> u32 {
    if p.x > 0xFFFF || p.y > 0xFFFF {
        return u32::MAX;
    }
    p.x << 16 | p.y
}

fn rect(sides: [i32; 4]) -> PixelRect {
    PixelRect { left: sides[0], top: sides[1], right: sides[2], bottom: sides[3] }
}

fn rect_of(words: &[u64]) -> PixelRect {
    rect([words[0], words[1], words[2], words[3]].map(|word| word as u32 as i32))
}

fn window_of(query: &[u64]) -> PixelRect {
    rect_of(&query[0..4])
}

fn issue_of(word: u32) -> PlacementIssue {
    let index = (word & 0x1FFF) as usize;
    match word >> 25 & 3 {
        0 => PlacementIssue::OutOfMap,
        1 => PlacementIssue::UnbuildableTerrain,
        2 => PlacementIssue::OverlapsObstacle { index },
        _ => PlacementIssue::OverlapsBuilding { index },
    }
}

fn query_of(words: &[u64], buildings: usize) -> WallQuery {
    let point = |k: usize| PixelPosition { x: words[k] as u32, y: words[k + 1] as u32 };
    let extents = |k: usize| CollisionBounds { left: words[k] as u32, top: words[k + 1] as u32, right: words[k + 2] as u32, bottom: words[k + 3] as u32 };
    let building = |i: usize| {
        let k = 12 + 8 * i;
        WallBuilding {
            tile: TilePosition { x: words[k] as u32, y: words[k + 1] as u32 },
            footprint: DepotFootprint { width_tiles: words[k + 2] as u32, height_tiles: words[k + 3] as u32 },
            collision: extents(k + 4),
        }
    };
    WallQuery { window: window_of(words), start: point(4), end: point(6), mover: extents(8), buildings: (0..buildings.min(MAX_BUILDINGS)).map(building).collect() }
}

// A packed query as the words that a check takes.
struct Read {
    grid: TerrainGrid,
    obstacles: Vec<i32>,
    query: [u64; QUERY_WORDS],
    buildings: usize,
}

fn read_words(packed: &[u8]) -> Result<Read, WallError> {
    let (mut cells, mut obstacles) = (Vec::new(), Vec::new());
    if packed.len() >= 5 {
        // The header says how much room the cells and the obstacles need. A query that is too short for them needs none.
        let header = packed[..5].iter().fold(0u64, |bits, byte| bits << 8 | u64::from(*byte));
        let (area, n) = (((header >> 30) + 1) * ((header >> 20 & 1023) + 1), header >> 6 & 16383);
        if 5 * area + 128 * n <= 8 * packed.len() as u64 {
            cells.resize(area as usize, 0);
            obstacles.resize(4 * n as usize, 0);
        }
    }
    let mut answer = [0; READ_WORDS];
    // What the header asks: each pointer comes with its slice's length, and the areas that are written are apart.
    let number = unsafe {
        ffi::walls_c_read_packed(packed.as_ptr(), packed.len(), cells.as_mut_ptr(), cells.len(), obstacles.as_mut_ptr(), obstacles.len(), answer.as_mut_ptr(), answer.len())
    };
    accepted(number, &answer)?;
    let mut query = [0; QUERY_WORDS];
    query.copy_from_slice(&answer[9..]);
    Ok(Read { grid: TerrainGrid { width: answer[5] as u32, height: answer[6] as u32, cells }, obstacles, query, buildings: answer[8] as usize })
}
