//! The product's calls as the comparison makes them, over `perillahinge::raw`, which declares the C interface.
//! The safe wrapper beside it is too good for this: it takes no face that is none, and drops numbers of an answer
//! that must be 0. Here they are passed and tested.
use crate::bare::{BatchReply, Reply};
use crate::ground::{Laid, Site};
use crate::model::{self, Call, Lent, Record, Refusal};
use crate::session::Calls;
use perillahinge::raw::{self, Config, Pos, Session};

pub fn hash2(x: i32, y: i32) -> f32 {
    unsafe { raw::pl_hash2(x, y) }
}

pub fn hash3(x: i32, y: i32, z: i32) -> f32 {
    unsafe { raw::pl_hash3(x, y, z) }
}

pub fn noise2d(x: f32, y: f32) -> f32 {
    unsafe { raw::pl_noise2d(x, y) }
}

pub fn noise3d(x: f32, y: f32, z: f32) -> f32 {
    unsafe { raw::pl_noise3d(x, y, z) }
}

pub fn fbm2d(x: f32, y: f32, octaves: u32) -> f32 {
    unsafe { raw::pl_fbm2d(x, y, octaves) }
}

pub fn fbm3d(x: f32, y: f32, z: f32, octaves: u32) -> f32 {
    unsafe { raw::pl_fbm3d(x, y, z, octaves) }
}

/// An answer's number; where the rest of the answer is not what the header says of it, a number that no model gives.
fn number(number: u32, rest: bool) -> u32 {
    if rest {
        number
    } else {
        1000 + number
    }
}

/// The answer of a call on bare cells. Its line is 0; the value is compared by the caller.
pub fn answer(answer: raw::Answer) -> Reply {
    Reply {
        number: number(answer.number, answer.line == 0),
        value: u32::try_from(answer.value).unwrap_or(u32::MAX),
    }
}

fn config(s: &Site) -> Config {
    Config {
        seed: s.seed,
        sea_level: s.sea_level,
        world_height_blocks: s.world_height_blocks,
        chunk_size: s.chunk_size,
    }
}

fn pos(s: &Site) -> Pos {
    let &Site { cx, cy, cz, .. } = s;
    Pos { cx, cy, cz }
}

pub fn generate(s: &Site, cells: &mut [u16]) -> Laid {
    let reply = answer(unsafe { raw::pl_generate(config(s), pos(s), cells.as_mut_ptr(), cells.len()) });
    match reply.number {
        0 => Laid::Count(reply.value),
        number => Laid::Refused(number),
    }
}

pub fn get(cells: &[u16], size: usize, [x, y, z]: [usize; 3]) -> Reply {
    answer(unsafe { raw::pl_get(cells.as_ptr(), cells.len(), size, x, y, z) })
}

pub fn is_air(cells: &[u16], size: usize, [x, y, z]: [usize; 3]) -> Reply {
    answer(unsafe { raw::pl_is_air(cells.as_ptr(), cells.len(), size, x, y, z) })
}

pub fn is_empty(cells: &[u16], size: usize) -> Reply {
    answer(unsafe { raw::pl_is_empty(cells.as_ptr(), cells.len(), size) })
}

pub fn is_solid(cells: &[u16], size: usize) -> Reply {
    answer(unsafe { raw::pl_is_solid(cells.as_ptr(), cells.len(), size) })
}

pub fn replace_blocks(cells: &mut [u16], size: usize, blocks: &[u16]) -> Reply {
    let (c, n) = (cells.as_mut_ptr(), cells.len());
    answer(unsafe { raw::pl_replace_blocks(c, n, size, blocks.as_ptr(), blocks.len()) })
}

pub fn set(cells: &mut [u16], size: usize, count: u32, [x, y, z]: [usize; 3], id: u16) -> Reply {
    answer(unsafe { raw::pl_set(cells.as_mut_ptr(), cells.len(), size, count, x, y, z, id) })
}

pub fn fill_column(cells: &mut [u16], size: usize, count: u32, [x, z, height]: [usize; 3], id: u16) -> Reply {
    let (c, n) = (cells.as_mut_ptr(), cells.len());
    answer(unsafe { raw::pl_fill_column(c, n, size, count, x, z, height, id) })
}

pub fn set_blocks(cells: &mut [u16], size: usize, count: u32, edits: &[u32]) -> BatchReply {
    let (c, n) = (cells.as_mut_ptr(), cells.len());
    let answer = unsafe { raw::pl_set_blocks(c, n, size, count, edits.as_ptr(), edits.len()) };
    BatchReply {
        number: number(answer.number, answer.line == 0),
        count: answer.count,
        written: answer.written,
    }
}

/// The face is a number, 0 to 5 in the order of the Rust's `Face`.
pub fn extract_border(cells: &[u16], size: usize, face: u32, border: &mut [u16]) -> Reply {
    let (b, m) = (border.as_mut_ptr(), border.len());
    answer(unsafe { raw::pl_extract_border(cells.as_ptr(), cells.len(), size, face, b, m) })
}

pub fn tally(cells: &[u16], size: usize, ids: &mut [u16], counts: &mut [u32]) -> Reply {
    let (c, n, i, m) = (cells.as_ptr(), cells.len(), ids.as_mut_ptr(), ids.len());
    answer(unsafe { raw::pl_tally(c, n, size, i, m, counts.as_mut_ptr(), counts.len()) })
}

/// The cells are only to be read. They are lent as the C interface could write them, so that a write is seen.
pub fn to_planes(cells: &mut [u16], size: usize, bytes: &mut [u8]) -> Reply {
    let (c, n, b, m) = (cells.as_mut_ptr(), cells.len(), bytes.as_mut_ptr(), bytes.len());
    answer(unsafe { raw::pl_to_planes(c, n, size, b, m) })
}

/// Here it is the bytes that are only to be read.
pub fn from_planes(bytes: &mut [u8], size: usize, cells: &mut [u16]) -> Reply {
    let (b, m, c, n) = (bytes.as_mut_ptr(), bytes.len(), cells.as_mut_ptr(), cells.len());
    answer(unsafe { raw::pl_from_planes(b, m, size, c, n) })
}

fn session(r: &Record) -> Session {
    Session {
        config: config(&r.site),
        pos: pos(&r.site),
        count: r.count,
        used: r.used,
        active: r.active,
    }
}

fn record(s: &Session) -> Record {
    let site = Site {
        seed: s.config.seed,
        sea_level: s.config.sea_level,
        world_height_blocks: s.config.world_height_blocks,
        chunk_size: s.config.chunk_size,
        cx: s.pos.cx,
        cy: s.pos.cy,
        cz: s.pos.cz,
    };
    Record {
        site,
        count: s.count,
        used: s.used,
        active: s.active,
    }
}

/// Whether a refused start has no record, no lines and no bytes.
fn empty(start: &raw::Start) -> bool {
    let nothing = Session {
        config: Config {
            seed: 0,
            sea_level: 0,
            world_height_blocks: 0,
            chunk_size: 0,
        },
        pos: Pos { cx: 0, cy: 0, cz: 0 },
        count: 0,
        used: 0,
        active: 0,
    };
    start.session == nothing && start.lines == 0 && start.trailing == 0
}

/// The name that a call is given; none of an edit and an undo.
fn name_of(call: &Call) -> &[u8] {
    match call {
        Call::Checkpoint(name) | Call::Restore(name) => &name.0,
        _ => &[],
    }
}

/// A name as C takes it: NULL where it has no byte.
fn pointer(name: &[u8]) -> *const u8 {
    if name.is_empty() {
        std::ptr::null()
    } else {
        name.as_ptr()
    }
}

/// The product's session calls, over a record lent by reference. A name must be as it was after the call.
pub struct Product;

impl Calls for Product {
    fn fresh(&self, site: &Site, cells: &mut [u16], journal: &mut [u8]) -> Result<Record, u32> {
        let (n, m) = (cells.len(), journal.len());
        let (c, j) = (cells.as_mut_ptr(), journal.as_mut_ptr());
        let start = unsafe { raw::pl_session_fresh(config(site), pos(site), c, n, j, m) };
        let rest = match start.number {
            0 => start.lines == 1 && start.trailing == 0,
            _ => empty(&start),
        };
        match number(start.number, start.line == 0 && rest) {
            0 => Ok(record(&start.session)),
            number => Err(number),
        }
    }

    fn call(&self, lent: &mut Lent, call: &Call) -> model::Reply {
        let mut record_lent = session(&lent.record);
        let s = &mut record_lent;
        let (c, n) = (lent.cells.as_mut_ptr(), lent.cells.len());
        let (j, m) = (lent.journal.as_mut_ptr(), lent.journal.len());
        let name = name_of(call).to_vec();
        let reply = unsafe {
            match call {
                Call::Set([x, y, z], id) => raw::pl_session_set(s, c, n, j, m, *x, *y, *z, *id),
                Call::Column { x, z, height, id } => {
                    raw::pl_session_fill_column(s, c, n, j, m, *x, *z, *height, *id)
                }
                Call::Batch(edits) => raw::pl_session_set_blocks(s, c, n, j, m, edits.as_ptr(), edits.len()),
                Call::Undo => raw::pl_session_undo(s, c, n, j, m),
                Call::Checkpoint(_) => raw::pl_session_checkpoint(s, j, m, pointer(&name), name.len()),
                Call::Restore(_) => raw::pl_session_restore(s, c, n, j, m, pointer(&name), name.len()),
            }
        };
        lent.record = record(&record_lent);
        model::Reply {
            number: number(reply.number, name == name_of(call)),
            line: reply.line,
            written: reply.written,
            previous: reply.previous,
            altered: reply.altered,
        }
    }

    fn reopen(
        &self,
        journal: &[u8],
        held: usize,
        cells: &mut [u16],
    ) -> Result<(Record, usize, usize), Refusal> {
        let (n, m) = (cells.len(), journal.len());
        let start = unsafe { raw::pl_session_reopen(cells.as_mut_ptr(), n, journal.as_ptr(), m, held) };
        let rest = match start.number {
            0 => start.line == 0,
            _ => empty(&start),
        };
        match number(start.number, rest) {
            0 => Ok((record(&start.session), start.lines, start.trailing)),
            number => Err(Refusal {
                number,
                line: u32::try_from(start.line).unwrap_or(u32::MAX),
            }),
        }
    }

    fn committed(&self, journal: &[u8], held: usize) -> usize {
        unsafe { raw::pl_committed_len(journal.as_ptr(), journal.len(), held) }
    }
}
