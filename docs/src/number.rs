//! Holds the answer numbers of document 01 under names.

/// Done, or for a list reading: the page was found.
pub const DONE: u8 = 0;
/// n or L out of range.
pub const SHAPE: u8 = 1;
/// List length no multiple of 12+L, over 512 rows, or an arrival number over 511.
pub const LIST: u8 = 2;
/// A lent buffer too short.
pub const ROOM: u8 = 3;
/// A constraint bit worth 2^n or more.
pub const STRAY: u8 = 4;
/// Rank below n.
pub const FEW: u8 = 5;
/// Rank over n and the pick not unique.
pub const TIE: u8 = 6;
/// Picked constraints dependent.
pub const SINGULAR: u8 = 7;
/// Page length other than nL.
pub const PAGE_LENGTH: u8 = 8;
/// A store whose header has n, L or the number of rows out of range.
pub const HEADER: u8 = 10;
/// Frame ends inside a field.
pub const SHORT: u8 = 11;
/// Field with a wrong tag.
pub const TAG: u8 = 12;
/// Field with a wrong length.
pub const FIELD_LENGTH: u8 = 13;
/// The frame's own n or L out of range.
pub const FRAME_SHAPE: u8 = 14;
/// Bytes after the last field.
pub const TRAILING: u8 = 15;
/// Good frame of another page number, n or L.
pub const OTHER_PAGE: u8 = 16;
