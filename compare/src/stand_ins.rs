//! Stand-ins for the four types that the wall modules take from modules that are not at hand
//! (`bases` and `obstacles`). Names and fields are those that the originals read and write.

#[derive(Debug, Copy, Clone, Eq, PartialEq, Hash)]
pub struct PixelPosition {
    pub x: u32,
    pub y: u32,
}

#[derive(Debug, Copy, Clone, Eq, PartialEq, Hash)]
pub struct TilePosition {
    pub x: u32,
    pub y: u32,
}

#[derive(Debug, Copy, Clone, Eq, PartialEq, Hash)]
pub struct DepotFootprint {
    pub width_tiles: u32,
    pub height_tiles: u32,
}

#[derive(Debug, Copy, Clone, Eq, PartialEq, Hash)]
pub struct PixelRect {
    pub left: i32,
    pub top: i32,
    pub right: i32,
    pub bottom: i32,
}
