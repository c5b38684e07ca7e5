//! The header, function by function: `include/perillahinge.h` documents each of them, in this order and by these
//! names. It is the only place in Rust where the C interface is declared; the safe wrapper and the comparison with
//! the original both call through it.
#![allow(missing_docs)]

use std::mem::{offset_of, size_of};

/// Settings: seed, sea level, world height, size.
#[repr(C)]
#[derive(Clone, Copy, Debug, PartialEq, Eq)]
pub struct Config {
    pub seed: u32,
    pub sea_level: i32,
    pub world_height_blocks: i32,
    pub chunk_size: usize,
}

/// The place of a chunk.
#[repr(C)]
#[derive(Clone, Copy, Debug, PartialEq, Eq)]
pub struct Pos {
    pub cx: i32,
    pub cy: i32,
    pub cz: i32,
}

/// A session's record: settings, place, number of nonzero cells, used bytes of the journal, active edits.
#[repr(C)]
#[derive(Clone, Copy, Debug, PartialEq, Eq)]
pub struct Session {
    pub config: Config,
    pub pos: Pos,
    pub count: u32,
    pub used: usize,
    pub active: usize,
}

/// The answer of a session's edit, undo, checkpoint or restore.
#[repr(C)]
#[derive(Clone, Copy, Debug, PartialEq, Eq)]
pub struct Reply {
    pub number: u32,
    pub line: usize,
    pub written: usize,
    pub previous: u16,
    pub altered: usize,
}

/// The answer of a call on bare cells.
#[repr(C)]
#[derive(Clone, Copy, Debug, PartialEq, Eq)]
pub struct Answer {
    pub number: u32,
    pub line: usize,
    pub value: usize,
}

/// The answer of a batch on bare cells.
#[repr(C)]
#[derive(Clone, Copy, Debug, PartialEq, Eq)]
pub struct BatchAnswer {
    pub number: u32,
    pub line: usize,
    pub written: usize,
    pub count: u32,
}

/// The answer of a fresh session or of reopening.
#[repr(C)]
#[derive(Clone, Copy, Debug, PartialEq, Eq)]
pub struct Start {
    pub session: Session,
    pub number: u32,
    pub line: usize,
    pub lines: usize,
    pub trailing: usize,
}

// The layout that the archive has, as the header tests it.
const _: () = {
    assert!(size_of::<Config>() == 24 && offset_of!(Config, chunk_size) == 16);
    assert!(size_of::<Session>() == 56 && offset_of!(Session, pos) == 24);
    assert!(offset_of!(Session, count) == 36 && offset_of!(Session, used) == 40);
    assert!(size_of::<Reply>() == 40 && offset_of!(Reply, line) == 8);
    assert!(offset_of!(Reply, previous) == 24 && offset_of!(Reply, altered) == 32);
    assert!(size_of::<Answer>() == 24 && offset_of!(Answer, line) == 8);
    assert!(size_of::<BatchAnswer>() == 32 && offset_of!(BatchAnswer, count) == 24);
    assert!(size_of::<Start>() == 88 && offset_of!(Start, number) == 56);
};

// The greatest seed.
pub const PL_SEED_MOST: u32 = 10000000;

// Checkpoints: why a name was refused, the most bytes of a name and the most names of a journal.
pub const PL_NAME: u32 = 25;
pub const PL_UNKNOWN_NAME: u32 = 26;
pub const PL_MANY_NAMES: u32 = 27;
pub const PL_NAME_MOST: usize = 16;
pub const PL_NAMES_MOST: usize = 16;

// Planes: why a call was refused.
pub const PL_PLANES_SIZE: u32 = 28;
pub const PL_PLANES_BYTES: u32 = 29;

// Sessions.
extern "C" {
    pub fn pl_session_fresh(
        config: Config,
        pos: Pos,
        cells: *mut u16,
        cells_len: usize,
        journal: *mut u8,
        journal_len: usize,
    ) -> Start;
    pub fn pl_session_set(
        session: &mut Session,
        cells: *mut u16,
        cells_len: usize,
        journal: *mut u8,
        journal_len: usize,
        x: usize,
        y: usize,
        z: usize,
        id: u16,
    ) -> Reply;
    pub fn pl_session_fill_column(
        session: &mut Session,
        cells: *mut u16,
        cells_len: usize,
        journal: *mut u8,
        journal_len: usize,
        x: usize,
        z: usize,
        height: usize,
        id: u16,
    ) -> Reply;
    pub fn pl_session_set_blocks(
        session: &mut Session,
        cells: *mut u16,
        cells_len: usize,
        journal: *mut u8,
        journal_len: usize,
        edits: *const u32,
        edits_len: usize,
    ) -> Reply;
    pub fn pl_session_undo(
        session: &mut Session,
        cells: *mut u16,
        cells_len: usize,
        journal: *mut u8,
        journal_len: usize,
    ) -> Reply;
    pub fn pl_session_checkpoint(
        session: &mut Session,
        journal: *mut u8,
        journal_len: usize,
        name: *const u8,
        name_len: usize,
    ) -> Reply;
    pub fn pl_session_restore(
        session: &mut Session,
        cells: *mut u16,
        cells_len: usize,
        journal: *mut u8,
        journal_len: usize,
        name: *const u8,
        name_len: usize,
    ) -> Reply;
    pub fn pl_session_reopen(
        cells: *mut u16,
        cells_len: usize,
        journal: *const u8,
        journal_len: usize,
        held: usize,
    ) -> Start;
    pub fn pl_committed_len(journal: *const u8, journal_len: usize, held: usize) -> usize;
}

// Cells without a session.
extern "C" {
    pub fn pl_generate(config: Config, pos: Pos, cells: *mut u16, cells_len: usize) -> Answer;
    pub fn pl_get(cells: *const u16, cells_len: usize, size: usize, x: usize, y: usize, z: usize) -> Answer;
    pub fn pl_is_air(
        cells: *const u16,
        cells_len: usize,
        size: usize,
        x: usize,
        y: usize,
        z: usize,
    ) -> Answer;
    pub fn pl_is_empty(cells: *const u16, cells_len: usize, size: usize) -> Answer;
    pub fn pl_is_solid(cells: *const u16, cells_len: usize, size: usize) -> Answer;
    pub fn pl_set(
        cells: *mut u16,
        cells_len: usize,
        size: usize,
        count: u32,
        x: usize,
        y: usize,
        z: usize,
        id: u16,
    ) -> Answer;
    pub fn pl_fill_column(
        cells: *mut u16,
        cells_len: usize,
        size: usize,
        count: u32,
        x: usize,
        z: usize,
        height: usize,
        id: u16,
    ) -> Answer;
    pub fn pl_set_blocks(
        cells: *mut u16,
        cells_len: usize,
        size: usize,
        count: u32,
        edits: *const u32,
        edits_len: usize,
    ) -> BatchAnswer;
    pub fn pl_replace_blocks(
        cells: *mut u16,
        cells_len: usize,
        size: usize,
        blocks: *const u16,
        blocks_len: usize,
    ) -> Answer;
    pub fn pl_extract_border(
        cells: *const u16,
        cells_len: usize,
        size: usize,
        face: u32,
        border: *mut u16,
        border_len: usize,
    ) -> Answer;
    pub fn pl_tally(
        cells: *const u16,
        cells_len: usize,
        size: usize,
        ids: *mut u16,
        ids_len: usize,
        counts: *mut u32,
        counts_len: usize,
    ) -> Answer;
}

// Planes.
extern "C" {
    pub fn pl_to_planes(
        cells: *const u16,
        cells_len: usize,
        size: usize,
        bytes: *mut u8,
        bytes_len: usize,
    ) -> Answer;
    pub fn pl_from_planes(
        bytes: *const u8,
        bytes_len: usize,
        size: usize,
        cells: *mut u16,
        cells_len: usize,
    ) -> Answer;
}

// The noise under the ground.
extern "C" {
    pub fn pl_hash2(x: i32, y: i32) -> f32;
    pub fn pl_hash3(x: i32, y: i32, z: i32) -> f32;
    pub fn pl_noise2d(x: f32, y: f32) -> f32;
    pub fn pl_noise3d(x: f32, y: f32, z: f32) -> f32;
    pub fn pl_fbm2d(x: f32, y: f32, octaves: u32) -> f32;
    pub fn pl_fbm3d(x: f32, y: f32, z: f32, octaves: u32) -> f32;
}
