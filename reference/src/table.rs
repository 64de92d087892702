//! The screen and the table of panes, as set-up is given them.

/// The screen: width, height and depth b.
#[derive(Clone, Copy, Debug, PartialEq, Eq, Default)]
pub struct Geometry {
    pub width: u32,
    pub height: u32,
    pub depth: u32,
}

/// One row of the table: a pane's rectangle on the screen and its store.
#[derive(Clone, Copy, Debug, PartialEq, Eq, Default)]
pub struct Row {
    pub left: u32,
    pub top: u32,
    pub width: u32,
    pub height: u32,
    pub store_start: u32,
    pub store_length: u32,
}
