//! The original's `check_wall` and `TerrainGrid::from_cells`, from its own files (build.rs), over stand-ins of the four types that they
//! lean on, with the fields and widths that document 01 gives.
#![allow(clippy::all)]
use thiserror::Error;

#[derive(Debug, Copy, Clone, Eq, PartialEq, Hash)]
pub struct PixelRect {
    pub left: i32,
    pub top: i32,
    pub right: i32,
    pub bottom: i32,
}

#[derive(Debug, Copy, Clone, Eq, PartialEq, Hash)]
pub struct PixelPosition {
    pub x: u32,
    pub y: u32,
}

#[derive(Debug, Copy, Clone, Eq, PartialEq, Hash)]
pub struct TilePosition {
    pub x: u32,
    pub y: u32,
}

#[derive(Debug, Copy, Clone, Eq, PartialEq, Hash)]
pub struct DepotFootprint {
    pub width_tiles: u32,
    pub height_tiles: u32,
}

include!(concat!(env!("OUT_DIR"), "/root.rs"));
