//! What the original answers, in this project's numbers and words. It knows neither cell bytes nor words nor lent areas: 3, 5 and 17 to 19
//! are said here, and everything else is the original's own answer.
use crate::case::{Case, PLAIN};
use crate::ffi::CHECK_WORDS;
use original::walls::{check_wall, PlacementIssue, WallCheck, WallEndpoint, WallError, WallPassage};
use original::{AnalysisError, PixelPosition, TerrainCell, TerrainGrid};

/// A refusal's number and values.
#[derive(Debug, Clone, PartialEq)]
pub struct Refusal {
    pub number: u32,
    pub values: Vec<u64>,
}

pub fn refuse(number: u32, values: &[usize]) -> Refusal {
    Refusal { number, values: values.iter().map(|v| *v as u64).collect() }
}

/// The original's answer, or the first of 1 to 16 that applies.
pub fn ask(case: &Case) -> Result<WallCheck, Refusal> {
    let grid = grid(case)?;
    if case.words.len() % 4 != 0 {
        return Err(refuse(5, &[case.words.len()]));
    }
    check_wall(&grid, &case.obstacles(), &case.query).map_err(told)
}

/// The grid that `from_cells` makes. A byte of 32 or more is no cell of the original: it is 3 where no faulty cell is before it.
pub fn grid(case: &Case) -> Result<TerrainGrid, Refusal> {
    let bad = case.cells.iter().position(|c| *c >= 32);
    let cells = case.cells.iter().map(|c| if *c < 32 { *c } else { PLAIN });
    let cells = cells.map(|c| TerrainCell { walkable: c & 16 != 0, terrain_buildable: c & 8 != 0, elevation: c >> 1 & 3, ramp: c & 1 != 0 });
    let made = TerrainGrid::from_cells(case.width, case.height, cells.collect());
    match (made, bad) {
        (Err(AnalysisError::InvalidGridDimensions { width, height }), _) => Err(refuse(1, &[width as usize, height as usize])),
        (Err(AnalysisError::CellLength { width, height, expected, actual }), _) => Err(refuse(2, &[width as usize, height as usize, expected, actual])),
        (Err(AnalysisError::InvalidElevation { index, elevation }), bad) if bad.map_or(true, |b| index < b) => Err(refuse(4, &[index, elevation as usize])),
        (_, Some(index)) => Err(refuse(3, &[index])),
        (Err(e), None) => panic!("the original's grid says {e:?}"),
        (Ok(grid), None) => Ok(grid),
    }
}

fn told(e: WallError) -> Refusal {
    match e {
        WallError::TooManyObstacles { actual } => refuse(6, &[actual]),
        WallError::InvalidObstacle { index } => refuse(7, &[index]),
        WallError::MoverExtentTooLarge => refuse(8, &[]),
        WallError::TooManyBuildings { actual } => refuse(9, &[actual]),
        WallError::InvalidWindow => refuse(10, &[]),
        WallError::WindowTooLarge { width, height } => refuse(11, &[width, height]),
        WallError::TooManyCenters { centers } => refuse(12, &[centers]),
        WallError::EndpointOutsideWindow { endpoint, x, y } => refuse(13, &[(endpoint == WallEndpoint::End) as usize, x as usize, y as usize]),
        WallError::InvalidFootprint { index, width_tiles, height_tiles } => refuse(14, &[index, width_tiles as usize, height_tiles as usize]),
        WallError::CollisionExtentTooLarge { index } => refuse(15, &[index]),
        WallError::CoordinateOverflow { index } => refuse(16, &[index]),
    }
}

pub fn passage_number(passage: WallPassage) -> u64 {
    match passage {
        WallPassage::StartBlocked => 0,
        WallPassage::EndBlocked => 1,
        WallPassage::Open => 2,
        WallPassage::AlreadyDisconnected => 3,
        WallPassage::BlockedWithinWindow => 4,
    }
}

fn issue_word(building: usize, issue: &PlacementIssue) -> u32 {
    let (kind, index) = match issue {
        PlacementIssue::OutOfMap => (0, 0),
        PlacementIssue::UnbuildableTerrain => (1, 0),
        PlacementIssue::OverlapsObstacle { index } => (2, *index),
        PlacementIssue::OverlapsBuilding { index } => (3, *index),
    };
    (building as u32) << 27 | kind << 25 | index as u32
}

pub fn issue_words(check: &WallCheck) -> Vec<u32> {
    check.placements.iter().enumerate().flat_map(|(b, p)| p.issues.iter().map(move |i| issue_word(b, i))).collect()
}

pub fn point_word(p: PixelPosition) -> u32 {
    p.x << 16 | p.y
}

pub fn route_words(check: &WallCheck) -> Vec<u32> {
    check.route.iter().map(|p| point_word(*p)).collect()
}

/// The number and the values, five words.
pub fn refusal_words(refusal: Option<&Refusal>) -> Vec<u64> {
    let mut words = vec![0; 5];
    if let Some(r) = refusal {
        words[0] = u64::from(r.number);
        words[1..1 + r.values.len()].copy_from_slice(&r.values);
    }
    words
}

/// The words of a check's answer.
pub fn answer_words(asked: Result<&WallCheck, &Refusal>) -> Vec<u64> {
    let mut words = refusal_words(asked.err());
    if let Ok(check) = asked {
        let side = |s: i32| u64::from(s as u32);
        words.extend([passage_number(check.passage), u64::from(check.baseline_passable), check.route.len() as u64]);
        words.extend([check.window.left, check.window.top, check.window.right, check.window.bottom].map(side));
        for p in &check.placements {
            for r in [p.footprint, p.collision] {
                words.extend([r.left, r.top, r.right, r.bottom].map(side));
            }
            words.push(p.issues.len() as u64);
        }
    }
    words.resize(CHECK_WORDS, 0);
    words
}
