//! Perillahinge for Rust hosts: slices in, a `Result` out, whose error is an enum. All `unsafe` of a host is here. It
//! is sound because every call returns for every input and touches only what it is lent, and because a Rust slice is
//! what the C interface asks for: aligned, of its length, and where it is `&mut` not shared. include/perillahinge.h
//! documents the calls.
#![deny(missing_docs)]

pub mod raw;

pub use raw::{Config, Pos, Session, PL_SEED_MOST as SEED_MOST};

/// Why a call was refused. It has changed nothing.
#[derive(Clone, Copy, Debug, PartialEq, Eq)]
#[allow(missing_docs)]
pub enum Refusal {
    Size,
    Seed,
    SeaLevel,
    WorldHeight,
    Place,
    Length,
    Outside,
    ManyGroups,
    JournalLength,
    NoLine,
    /// The first line is not of its form.
    FirstLine,
    /// This line, counted from 1, is malformed or not allowed there.
    LaterLine(usize),
    TallyLists,
    Record,
    UsedBytes,
    NothingActive,
    Full,
    /// The name of a checkpoint is not 1 to 16 bytes, each of a to z or 0 to 9.
    Name,
    /// No checkpoint has this name.
    UnknownName,
    /// It would be a seventeenth name.
    ManyNames,
    /// A chunk of this size has no planes: it is not 1, 2, 4, 8, 16, 32 or 64.
    PlanesSize,
    /// The bytes of the planes are not 2 * size * size * size.
    PlanesBytes,
    /// A number that this wrapper does not know: it does not belong to the archive.
    Unknown(u32),
}

/// The refusal of a number, or none for 0.
fn refusal(number: u32, line: usize) -> Result<(), Refusal> {
    Err(match number {
        0 => return Ok(()),
        1 => Refusal::Size,
        2 => Refusal::Seed,
        3 => Refusal::SeaLevel,
        4 => Refusal::WorldHeight,
        5 => Refusal::Place,
        6 => Refusal::Length,
        7 => Refusal::Outside,
        8 => Refusal::ManyGroups,
        9 => Refusal::JournalLength,
        10 => Refusal::NoLine,
        11 => Refusal::FirstLine,
        12 => Refusal::LaterLine(line),
        13 => Refusal::TallyLists,
        21 => Refusal::Record,
        22 => Refusal::UsedBytes,
        23 => Refusal::NothingActive,
        24 => Refusal::Full,
        25 => Refusal::Name,
        26 => Refusal::UnknownName,
        27 => Refusal::ManyNames,
        28 => Refusal::PlanesSize,
        29 => Refusal::PlanesBytes,
        other => Refusal::Unknown(other),
    })
}

/// A side of a chunk; a face that is none cannot be named here.
#[derive(Clone, Copy, Debug, PartialEq, Eq)]
#[repr(u32)]
#[allow(missing_docs)]
pub enum Face {
    PosX,
    NegX,
    PosY,
    NegY,
    PosZ,
    NegZ,
}

/// A map that was taken over.
#[derive(Clone, Copy, Debug, PartialEq)]
pub struct Reopened {
    /// The record, as it was after the last whole line.
    pub session: Session,
    /// The number of whole lines, the first included.
    pub lines: usize,
    /// The number of bytes after the last whole line.
    pub trailing: usize,
}

/// What an accepted batch of a session tells.
#[derive(Clone, Copy, Debug, PartialEq, Eq)]
pub struct Batch {
    /// How many groups were inside.
    pub written: usize,
    /// How many cells hold another id than before: one that is set and set back does not, one that is set twice counts
    /// once.
    pub altered: usize,
}

fn started(start: raw::Start) -> Result<Reopened, Refusal> {
    refusal(start.number, start.line)?;
    Ok(Reopened {
        session: start.session,
        lines: start.lines,
        trailing: start.trailing,
    })
}

fn replied(reply: raw::Reply) -> Result<raw::Reply, Refusal> {
    refusal(reply.number, reply.line).map(|()| reply)
}

fn answered(answer: raw::Answer) -> Result<usize, Refusal> {
    refusal(answer.number, answer.line)?;
    Ok(answer.value)
}

/// Lays the ground and writes the journal's first line.
pub fn fresh(config: Config, pos: Pos, cells: &mut [u16], journal: &mut [u8]) -> Result<Session, Refusal> {
    let (c, n, j, m) = lent(cells, journal);
    started(unsafe { raw::pl_session_fresh(config, pos, c, n, j, m) }).map(|s| s.session)
}

/// Takes a map over from the first `held` bytes of a journal.
pub fn reopen(cells: &mut [u16], journal: &[u8], held: usize) -> Result<Reopened, Refusal> {
    let (c, n, j, m) = (cells.as_mut_ptr(), cells.len(), journal.as_ptr(), journal.len());
    started(unsafe { raw::pl_session_reopen(c, n, j, m, held) })
}

/// The held bytes that count: those through the last LF.
pub fn committed(journal: &[u8], held: usize) -> &[u8] {
    &journal[..unsafe { raw::pl_committed_len(journal.as_ptr(), journal.len(), held) }]
}

/// Cells and a journal as C takes them: a pointer and a length each.
fn lent(cells: &mut [u16], journal: &mut [u8]) -> (*mut u16, usize, *mut u8, usize) {
    let (n, m) = (cells.len(), journal.len());
    (cells.as_mut_ptr(), n, journal.as_mut_ptr(), m)
}

/// A set, column or batch after which every cell is the same is idle: it is accepted with its usual answer, changes
/// nothing, has no line and does not become active, also where 256 edits are active or the journal is full. An older
/// journal may have lines of idle edits: there they are active.
///
/// Checkpoints are in the journal, not in the record: a tablet that takes over has them too. `checkpoint` and `restore`
/// are not among the 256 active edits, and are not undone.
impl Session {
    /// Sets one cell, and tells the id that it held before. Where that is another than `id`, the cell was altered; else
    /// the set is idle.
    pub fn set(
        &mut self,
        cells: &mut [u16],
        journal: &mut [u8],
        [x, y, z]: [usize; 3],
        id: u16,
    ) -> Result<u16, Refusal> {
        let (c, n, j, m) = lent(cells, journal);
        replied(unsafe { raw::pl_session_set(self, c, n, j, m, x, y, z, id) }).map(|r| r.previous)
    }

    /// Fills a column from y 0 up to a height, which is clipped to the size, and tells how many cells hold another id
    /// than before. Where that is 0, as with height 0 or with x or z outside, nothing changes and there is no line.
    pub fn fill_column(
        &mut self,
        cells: &mut [u16],
        journal: &mut [u8],
        [x, z]: [usize; 2],
        height: usize,
        id: u16,
    ) -> Result<usize, Refusal> {
        let (c, n, j, m) = lent(cells, journal);
        replied(unsafe { raw::pl_session_fill_column(self, c, n, j, m, x, z, height, id) }).map(|r| r.altered)
    }

    /// Sets the cells of groups x, y, z, id, and tells how many were inside and how many cells they altered. Where they
    /// altered none, or none is inside, nothing changes and there is no line.
    pub fn set_blocks(
        &mut self,
        cells: &mut [u16],
        journal: &mut [u8],
        edits: &[u32],
    ) -> Result<Batch, Refusal> {
        let (c, n, j, m) = lent(cells, journal);
        let reply = unsafe { raw::pl_session_set_blocks(self, c, n, j, m, edits.as_ptr(), edits.len()) };
        replied(reply).map(|r| Batch {
            written: r.written,
            altered: r.altered,
        })
    }

    /// Takes the last active edit back, and tells how many cells hold another id than before. In a map that only these
    /// calls write that is never 0, but for an idle edit that an older journal has a line of.
    pub fn undo(&mut self, cells: &mut [u16], journal: &mut [u8]) -> Result<usize, Refusal> {
        let (c, n, j, m) = lent(cells, journal);
        replied(unsafe { raw::pl_session_undo(self, c, n, j, m) }).map(|r| r.altered)
    }

    /// Remembers the active edits under a name of 1 to 16 bytes, each of a to z or 0 to 9. The same name again moves
    /// its checkpoint; there are at most 16 names.
    pub fn checkpoint(&mut self, journal: &mut [u8], name: &[u8]) -> Result<(), Refusal> {
        let (j, m) = (journal.as_mut_ptr(), journal.len());
        replied(unsafe { raw::pl_session_checkpoint(self, j, m, name.as_ptr(), name.len()) }).map(|_| ())
    }

    /// Makes the edits that the name's checkpoint remembers the active ones, and tells how many cells hold another id
    /// than before. Where that is 0 there is a line too. Every checkpoint stays, also one that was made later.
    pub fn restore(&mut self, cells: &mut [u16], journal: &mut [u8], name: &[u8]) -> Result<usize, Refusal> {
        let (c, n, j, m) = lent(cells, journal);
        replied(unsafe { raw::pl_session_restore(self, c, n, j, m, name.as_ptr(), name.len()) })
            .map(|r| r.altered)
    }
}

/// Lays the ground into cells, and answers its count.
pub fn generate(config: Config, pos: Pos, cells: &mut [u16]) -> Result<u32, Refusal> {
    answered(unsafe { raw::pl_generate(config, pos, cells.as_mut_ptr(), cells.len()) }).map(|n| n as u32)
}

/// The id of a cell.
pub fn get(cells: &[u16], size: usize, [x, y, z]: [usize; 3]) -> Result<u16, Refusal> {
    answered(unsafe { raw::pl_get(cells.as_ptr(), cells.len(), size, x, y, z) }).map(|id| id as u16)
}

/// Whether a cell is air.
pub fn is_air(cells: &[u16], size: usize, [x, y, z]: [usize; 3]) -> Result<bool, Refusal> {
    answered(unsafe { raw::pl_is_air(cells.as_ptr(), cells.len(), size, x, y, z) }).map(|n| n == 1)
}

/// Whether every cell is air.
pub fn is_empty(cells: &[u16], size: usize) -> Result<bool, Refusal> {
    answered(unsafe { raw::pl_is_empty(cells.as_ptr(), cells.len(), size) }).map(|n| n == 1)
}

/// Whether no cell is air.
pub fn is_solid(cells: &[u16], size: usize) -> Result<bool, Refusal> {
    answered(unsafe { raw::pl_is_solid(cells.as_ptr(), cells.len(), size) }).map(|n| n == 1)
}

/// Sets one cell, and answers the count.
pub fn set(
    cells: &mut [u16],
    size: usize,
    count: u32,
    [x, y, z]: [usize; 3],
    id: u16,
) -> Result<u32, Refusal> {
    let (c, n) = (cells.as_mut_ptr(), cells.len());
    answered(unsafe { raw::pl_set(c, n, size, count, x, y, z, id) }).map(|n| n as u32)
}

/// Fills a column from y 0 up to a height, and answers the count.
pub fn fill_column(
    cells: &mut [u16],
    size: usize,
    count: u32,
    [x, z]: [usize; 2],
    height: usize,
    id: u16,
) -> Result<u32, Refusal> {
    let (c, n) = (cells.as_mut_ptr(), cells.len());
    answered(unsafe { raw::pl_fill_column(c, n, size, count, x, z, height, id) }).map(|n| n as u32)
}

/// Sets the cells of groups x, y, z, id, and answers how many were inside, and the count.
pub fn set_blocks(
    cells: &mut [u16],
    size: usize,
    count: u32,
    edits: &[u32],
) -> Result<(usize, u32), Refusal> {
    let (c, n) = (cells.as_mut_ptr(), cells.len());
    let answer = unsafe { raw::pl_set_blocks(c, n, size, count, edits.as_ptr(), edits.len()) };
    refusal(answer.number, answer.line)?;
    Ok((answer.written, answer.count))
}

/// Copies blocks over all cells, and answers their count.
pub fn replace_blocks(cells: &mut [u16], size: usize, blocks: &[u16]) -> Result<u32, Refusal> {
    let (c, n) = (cells.as_mut_ptr(), cells.len());
    answered(unsafe { raw::pl_replace_blocks(c, n, size, blocks.as_ptr(), blocks.len()) }).map(|n| n as u32)
}

/// Copies the outermost layer on a face into a border of size * size.
pub fn extract_border(cells: &[u16], size: usize, face: Face, border: &mut [u16]) -> Result<(), Refusal> {
    let (c, n, b, m) = (cells.as_ptr(), cells.len(), border.as_mut_ptr(), border.len());
    answered(unsafe { raw::pl_extract_border(c, n, size, face as u32, b, m) }).map(|_| ())
}

/// Lists the nonzero ids present in ascending order, each beside the number of its cells, and answers how many ids
/// there are. Places past them are left. Lists as long as the cells, or of 65,535 places, are never too short.
pub fn tally(cells: &[u16], size: usize, ids: &mut [u16], counts: &mut [u32]) -> Result<usize, Refusal> {
    let (i, m, k, l) = (ids.as_mut_ptr(), ids.len(), counts.as_mut_ptr(), counts.len());
    answered(unsafe { raw::pl_tally(cells.as_ptr(), cells.len(), size, i, m, k, l) })
}

/// Copies the cells of a chunk of size 1, 2, 4, 8, 16, 32 or 64 into twice as many bytes: all low bytes in Morton
/// order, then all high bytes. `from_planes` undoes it.
pub fn to_planes(cells: &[u16], size: usize, bytes: &mut [u8]) -> Result<(), Refusal> {
    let (c, n, b, m) = (cells.as_ptr(), cells.len(), bytes.as_mut_ptr(), bytes.len());
    answered(unsafe { raw::pl_to_planes(c, n, size, b, m) }).map(|_| ())
}

/// Restores the cells from what `to_planes` wrote. Any bytes of the right number are some cells' planes.
pub fn from_planes(bytes: &[u8], size: usize, cells: &mut [u16]) -> Result<(), Refusal> {
    let (b, m, c, n) = (bytes.as_ptr(), bytes.len(), cells.as_mut_ptr(), cells.len());
    answered(unsafe { raw::pl_from_planes(b, m, size, c, n) }).map(|_| ())
}
