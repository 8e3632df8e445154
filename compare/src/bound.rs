//! The safe Rust crate's answers beside the original's.
use crate::case::Case;
use crate::oracle::Refusal;
use khimdorae_walls as ours;
use original::walls::{CollisionBounds, PlacementIssue, WallCheck, WallPassage};
use original::{PixelPosition, PixelRect};

fn rect(r: PixelRect) -> ours::PixelRect {
    ours::PixelRect { left: r.left, top: r.top, right: r.right, bottom: r.bottom }
}

fn point(p: PixelPosition) -> ours::PixelPosition {
    ours::PixelPosition { x: p.x, y: p.y }
}

fn extents(e: CollisionBounds) -> ours::CollisionBounds {
    ours::CollisionBounds { left: e.left, top: e.top, right: e.right, bottom: e.bottom }
}

fn issue(i: &PlacementIssue) -> ours::PlacementIssue {
    match *i {
        PlacementIssue::OutOfMap => ours::PlacementIssue::OutOfMap,
        PlacementIssue::UnbuildableTerrain => ours::PlacementIssue::UnbuildableTerrain,
        PlacementIssue::OverlapsObstacle { index } => ours::PlacementIssue::OverlapsObstacle { index },
        PlacementIssue::OverlapsBuilding { index } => ours::PlacementIssue::OverlapsBuilding { index },
    }
}

fn converted(check: &WallCheck) -> ours::WallCheck {
    ours::WallCheck {
        placements: check
            .placements
            .iter()
            .map(|p| ours::WallPlacement { footprint: rect(p.footprint), collision: rect(p.collision), issues: p.issues.iter().map(issue).collect() })
            .collect(),
        passage: match check.passage {
            WallPassage::StartBlocked => ours::WallPassage::StartBlocked,
            WallPassage::EndBlocked => ours::WallPassage::EndBlocked,
            WallPassage::Open => ours::WallPassage::Open,
            WallPassage::AlreadyDisconnected => ours::WallPassage::AlreadyDisconnected,
            WallPassage::BlockedWithinWindow => ours::WallPassage::BlockedWithinWindow,
        },
        baseline_passable: check.baseline_passable,
        route: check.route.iter().map(|p| point(*p)).collect(),
        window: rect(check.window),
    }
}

fn error(r: &Refusal) -> ours::WallError {
    let size = |k: usize| r.values[k] as usize;
    let word = |k: usize| r.values[k] as u32;
    match r.number {
        1 => ours::WallError::InvalidGridDimensions { width: word(0), height: word(1) },
        2 => ours::WallError::CellLength { width: word(0), height: word(1), expected: size(2), actual: size(3) },
        3 => ours::WallError::BadCell { index: size(0) },
        4 => ours::WallError::InvalidElevation { index: size(0), elevation: size(1) as u8 },
        6 => ours::WallError::TooManyObstacles { actual: size(0) },
        7 => ours::WallError::InvalidObstacle { index: size(0) },
        8 => ours::WallError::MoverExtentTooLarge,
        9 => ours::WallError::TooManyBuildings { actual: size(0) },
        10 => ours::WallError::InvalidWindow,
        11 => ours::WallError::WindowTooLarge { width: size(0), height: size(1) },
        13 => ours::WallError::EndpointOutsideWindow { endpoint: [ours::WallEndpoint::Start, ours::WallEndpoint::End][size(0)], x: word(1), y: word(2) },
        14 => ours::WallError::InvalidFootprint { index: size(0), width_tiles: word(1), height_tiles: word(2) },
        15 => ours::WallError::CollisionExtentTooLarge { index: size(0) },
        16 => ours::WallError::CoordinateOverflow { index: size(0) },
        n => panic!("the original gave {n}"),
    }
}

/// Its `check_wall`, by itself and in a checker that is used again, its `test_route` on the answer's route, and its packed form.
pub fn check(case: &Case, asked: &Result<WallCheck, Refusal>, checker: &mut ours::Checker) -> Result<(), String> {
    if case.words.len() % 4 != 0 {
        return Ok(());
    }
    let grid = ours::TerrainGrid { width: case.width, height: case.height, cells: case.cells.clone() };
    let obstacles: Vec<ours::PixelRect> = case.obstacles().into_iter().map(rect).collect();
    let buildings = case.query.buildings.iter().map(|b| ours::WallBuilding {
        tile: ours::TilePosition { x: b.tile.x, y: b.tile.y },
        footprint: ours::DepotFootprint { width_tiles: b.footprint.width_tiles, height_tiles: b.footprint.height_tiles },
        collision: extents(b.collision),
    });
    let q = &case.query;
    let query = ours::WallQuery { window: rect(q.window), start: point(q.start), end: point(q.end), mover: extents(q.mover), buildings: buildings.collect() };
    let wanted = asked.as_ref().map(converted).map_err(error);
    let got = checker.check_wall(&grid, &obstacles, &query);
    if got != wanted || ours::check_wall(&grid, &obstacles, &query) != wanted {
        return Err(format!("the Rust crate answers {got:?}, and the original {wanted:?}"));
    }
    let passes = checker.test_route(&grid, &obstacles, &query, wanted.as_ref().map_or(&[], |check| &check.route));
    let open = wanted.as_ref().map(|check| !check.route.is_empty()).map_err(|e| *e);
    if passes != open {
        return Err(format!("the Rust crate's route test says {passes:?}"));
    }
    if case.packs() {
        let bytes = case.pack();
        let read = ours::read_packed(&bytes);
        let mut first = query;
        first.buildings.truncate(32);
        if read != Ok(ours::PackedQuery { grid, obstacles, query: first }) || checker.check_packed(&bytes) != wanted {
            return Err(format!("the Rust crate reads {read:?}"));
        }
    }
    Ok(())
}
