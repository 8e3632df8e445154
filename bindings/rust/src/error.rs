use std::error::Error;
use std::fmt;

/// Which requested endpoint is outside the window.
#[derive(Debug, Copy, Clone, Eq, PartialEq, Hash)]
pub enum WallEndpoint {
    Start,
    End,
}

/// Why a query is refused, in the order in which it is looked at: the first that applies is given.
///
/// The cases of the original's `WallError` keep their names and fields. Those of its grid (`InvalidGridDimensions`, `CellLength`,
/// `InvalidElevation`) stand beside them, since the map is looked at by the same call, and so do those of cell bytes and packed queries.
#[derive(Debug, Copy, Clone, Eq, PartialEq, Hash)]
pub enum WallError {
    /// An axis of the map is 0 or above 1,024 cells.
    InvalidGridDimensions { width: u32, height: u32 },
    /// The map has not width × height cells.
    CellLength { width: u32, height: u32, expected: usize, actual: usize },
    /// The first faulty cell's byte is 32 or more.
    BadCell { index: usize },
    /// The first faulty cell's elevation is 3.
    InvalidElevation { index: usize, elevation: u8 },
    /// More than 8,192 obstacles.
    TooManyObstacles { actual: usize },
    /// The first obstacle that is empty or inverted.
    InvalidObstacle { index: usize },
    /// An extent of the mover is above 8,192 pixels.
    MoverExtentTooLarge,
    /// More than 32 buildings.
    TooManyBuildings { actual: usize },
    /// The window is empty, inverted or not inside the map.
    InvalidWindow,
    /// An axis of the window is above 1,024 pixels.
    WindowTooLarge { width: usize, height: usize },
    /// The window has more than 1,048,576 centers. It can't have while an axis is at most 1,024.
    TooManyCenters { centers: usize },
    /// An end is outside the window.
    EndpointOutsideWindow { endpoint: WallEndpoint, x: u32, y: u32 },
    /// A side of a building's footprint is 0 or above 256 tiles.
    InvalidFootprint { index: usize, width_tiles: u32, height_tiles: u32 },
    /// An extent of a building's collision box is above 8,192 pixels.
    CollisionExtentTooLarge { index: usize },
    /// A side of one of a building's two boxes is outside i32.
    CoordinateOverflow { index: usize },
    /// The packed query has fewer bytes than its counts need.
    PackedShort,
    /// The packed query has more bytes, or a filling bit is set.
    PackedTail,
}

impl WallError {
    // The case of a refusal's number and its values, as include/walls_c.h lists them. 5 and 17 can't come: obstacles are given whole, and
    // the areas are lent by this crate.
    pub(crate) fn of(number: u64, v: [u64; 4]) -> WallError {
        let size = |k: usize| v[k] as usize;
        let word = |k: usize| v[k] as u32;
        match number {
            1 => WallError::InvalidGridDimensions { width: word(0), height: word(1) },
            2 => WallError::CellLength { width: word(0), height: word(1), expected: size(2), actual: size(3) },
            3 => WallError::BadCell { index: size(0) },
            4 => WallError::InvalidElevation { index: size(0), elevation: v[1] as u8 },
            6 => WallError::TooManyObstacles { actual: size(0) },
            7 => WallError::InvalidObstacle { index: size(0) },
            8 => WallError::MoverExtentTooLarge,
            9 => WallError::TooManyBuildings { actual: size(0) },
            10 => WallError::InvalidWindow,
            11 => WallError::WindowTooLarge { width: size(0), height: size(1) },
            12 => WallError::TooManyCenters { centers: size(0) },
            13 => WallError::EndpointOutsideWindow { endpoint: if v[0] == 0 { WallEndpoint::Start } else { WallEndpoint::End }, x: word(1), y: word(2) },
            14 => WallError::InvalidFootprint { index: size(0), width_tiles: word(1), height_tiles: word(2) },
            15 => WallError::CollisionExtentTooLarge { index: size(0) },
            16 => WallError::CoordinateOverflow { index: size(0) },
            18 => WallError::PackedShort,
            19 => WallError::PackedTail,
            _ => unreachable!("refusal {number} {v:?}"),
        }
    }
}

impl fmt::Display for WallError {
    fn fmt(&self, f: &mut fmt::Formatter<'_>) -> fmt::Result {
        use WallError::*;
        match *self {
            InvalidGridDimensions { width, height } => write!(f, "a map of {width} by {height} cells; each axis is 1 to 1024"),
            CellLength { width, height, expected, actual } => write!(f, "{actual} cells where {width} by {height} needs {expected}"),
            BadCell { index } => write!(f, "cell {index} is no cell byte"),
            InvalidElevation { index, elevation } => write!(f, "cell {index} has elevation {elevation}; it is 0, 1 or 2"),
            TooManyObstacles { actual } => write!(f, "{actual} obstacles; the cap is 8192"),
            InvalidObstacle { index } => write!(f, "obstacle {index} is empty or inverted"),
            MoverExtentTooLarge => write!(f, "the mover has an extent above 8192 pixels"),
            TooManyBuildings { actual } => write!(f, "{actual} buildings; the cap is 32"),
            InvalidWindow => write!(f, "the window is empty or not inside the map"),
            WindowTooLarge { width, height } => write!(f, "a window of {width} by {height}; each axis is at most 1024 pixels"),
            TooManyCenters { centers } => write!(f, "a window of {centers} centers; the cap is 1048576"),
            EndpointOutsideWindow { endpoint, x, y } => write!(f, "the {} ({x}, {y}) is outside the window", if endpoint == WallEndpoint::Start { "start" } else { "end" }),
            InvalidFootprint { index, width_tiles, height_tiles } => write!(f, "building {index} has a footprint of {width_tiles} by {height_tiles} tiles"),
            CollisionExtentTooLarge { index } => write!(f, "building {index} has a collision extent above 8192 pixels"),
            CoordinateOverflow { index } => write!(f, "building {index} has a side outside 32 bits"),
            PackedShort => write!(f, "the packed query has too few bytes"),
            PackedTail => write!(f, "the packed query has too many bytes, or a filling bit is set"),
        }
    }
}

impl Error for WallError {}
