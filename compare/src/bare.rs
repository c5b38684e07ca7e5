//! The calls on bare cells, written from the scope (docs/SCOPE.md, section 5): what each answers and how it leaves
//! the cells. Where a call is one that the original takes, chunk.rs holds this model to the original too.

/// The answer of a call on cells: the refusal's number, 0 where it is accepted, and a value: the count, an id, the
/// number of ids, or 0 and 1 for no and yes.
#[derive(Clone, Copy, Debug, PartialEq)]
pub struct Reply {
    pub number: u32,
    pub value: u32,
}

/// The answer of a batch: the refusal's number, the count, and how many groups were put.
#[derive(Clone, Copy, Debug, PartialEq)]
pub struct BatchReply {
    pub number: u32,
    pub count: u32,
    pub written: usize,
}

fn accepted(value: u32) -> Reply {
    Reply { number: 0, value }
}

fn refused(number: u32) -> Reply {
    Reply { number, value: 0 }
}

/// The tests that every call begins with: 1, then 6; or 0.
fn shape(cells: &[u16], size: usize) -> u32 {
    if !(1..=64).contains(&size) {
        1
    } else if cells.len() != size * size * size {
        6
    } else {
        0
    }
}

/// Where a cell lies in the slice (SCOPE 5.1), or none outside the chunk.
fn place(size: usize, [x, y, z]: [usize; 3]) -> Option<usize> {
    (x < size && y < size && z < size).then(|| x + y * size + z * size * size)
}

/// A chunk's count (SCOPE 5.2).
pub fn non_air(cells: &[u16]) -> usize {
    cells.iter().filter(|&&id| id != 0).count()
}

pub fn get(cells: &[u16], size: usize, at: [usize; 3]) -> Reply {
    match (shape(cells, size), place(size, at)) {
        (0, Some(i)) => accepted(cells[i] as u32),
        (0, None) => refused(7),
        (number, _) => refused(number),
    }
}

pub fn is_air(cells: &[u16], size: usize, at: [usize; 3]) -> Reply {
    let found = get(cells, size, at);
    if found.number != 0 {
        return found;
    }
    accepted((found.value == 0) as u32)
}

/// Asks something of all cells.
fn ask(cells: &[u16], size: usize, holds: impl Fn(u16) -> bool) -> Reply {
    match shape(cells, size) {
        0 => accepted(cells.iter().all(|&id| holds(id)) as u32),
        number => refused(number),
    }
}

pub fn is_empty(cells: &[u16], size: usize) -> Reply {
    ask(cells, size, |id| id == 0)
}

pub fn is_solid(cells: &[u16], size: usize) -> Reply {
    ask(cells, size, |id| id != 0)
}

/// SCOPE 5.7: 6 for either slice.
pub fn replace_blocks(cells: &mut [u16], size: usize, blocks: &[u16]) -> Reply {
    match (shape(cells, size), shape(blocks, size)) {
        (0, 0) => {
            cells.copy_from_slice(blocks);
            accepted(non_air(cells) as u32)
        }
        (0, number) | (number, _) => refused(number),
    }
}

/// Lays an edit on as a whole, or refuses it with 21 for its count (SCOPE 5.10).
fn edit(cells: &mut [u16], count: u32, writes: &[(usize, u16)]) -> Result<u32, u32> {
    let mut after = cells.to_vec();
    for &(i, id) in writes {
        after[i] = id;
    }
    let most = cells.len() as i64;
    let moved = count as i64 + non_air(&after) as i64 - non_air(cells) as i64;
    if count as i64 > most || moved < 0 || moved > most {
        return Err(21);
    }
    cells.copy_from_slice(&after);
    Ok(moved as u32)
}

fn reply(done: Result<u32, u32>) -> Reply {
    done.map_or_else(refused, accepted)
}

/// SCOPE 5.4; in the order 1, 6, 7, 21.
pub fn set(cells: &mut [u16], size: usize, count: u32, at: [usize; 3], id: u16) -> Reply {
    match (shape(cells, size), place(size, at)) {
        (0, Some(i)) => reply(edit(cells, count, &[(i, id)])),
        (0, None) => refused(7),
        (number, _) => refused(number),
    }
}

/// SCOPE 5.5.
pub fn fill_column(cells: &mut [u16], size: usize, count: u32, [x, z, height]: [usize; 3], id: u16) -> Reply {
    match shape(cells, size) {
        0 => {
            let writes: Vec<_> = (0..height.min(size))
                .filter_map(|y| place(size, [x, y, z]))
                .map(|i| (i, id))
                .collect();
            reply(edit(cells, count, &writes))
        }
        number => refused(number),
    }
}

/// SCOPE 5.6.
pub fn set_blocks(cells: &mut [u16], size: usize, count: u32, edits: &[u32]) -> BatchReply {
    let number = shape(cells, size);
    if number != 0 {
        return BatchReply {
            number,
            count: 0,
            written: 0,
        };
    }
    let writes: Vec<_> = edits
        .chunks_exact(4)
        .filter_map(|g| {
            place(size, [g[0] as usize, g[1] as usize, g[2] as usize]).map(|i| (i, (g[3] % 65_536) as u16))
        })
        .collect();
    match edit(cells, count, &writes) {
        Ok(count) => BatchReply {
            number: 0,
            count,
            written: writes.len(),
        },
        Err(number) => BatchReply {
            number,
            count: 0,
            written: 0,
        },
    }
}

/// The ids other than 0 that some cell holds, each once and beside the number of its cells, in ascending id.
pub fn present(cells: &[u16]) -> Vec<(u16, u32)> {
    let mut held: Vec<u16> = cells.iter().copied().filter(|&id| id != 0).collect();
    held.sort_unstable();
    let alike = held.chunk_by(|a, b| a == b);
    alike.map(|same| (same[0], same.len() as u32)).collect()
}

/// SCOPE 5.9; in the order 1, 6, 13. Places of the two lists past the ids are left.
pub fn tally(cells: &[u16], size: usize, ids: &mut [u16], counts: &mut [u32]) -> Reply {
    let number = shape(cells, size);
    if number != 0 {
        return refused(number);
    }
    let listed = present(cells);
    if ids.len() < listed.len() || counts.len() < listed.len() {
        return refused(13);
    }
    for (i, &(id, count)) in listed.iter().enumerate() {
        ids[i] = id;
        counts[i] = count;
    }
    accepted(listed.len() as u32)
}

/// The refusal of a border, 0 for none: 1, 6, and 6 again where the border is not size² long.
pub fn border_refusal(cells: &[u16], size: usize, border: usize) -> u32 {
    match shape(cells, size) {
        0 if border != size * size => 6,
        number => number,
    }
}

/// The sizes of the chunks that have planes.
pub const PLANES: [usize; 7] = [1, 2, 4, 8, 16, 32, 64];

/// The position of a cell in Morton order (SCOPE 5.12): bit 0 of x, of y and of z, x lowest, then bit 1 of each, and so on. No
/// coordinate of a chunk has more than six bits.
pub fn morton(at: [usize; 3]) -> usize {
    let mut position = 0;
    for bit in 0..6 {
        for (axis, coordinate) in at.iter().enumerate() {
            position += ((coordinate >> bit) % 2) << (3 * bit + axis);
        }
    }
    position
}

/// The positions of a chunk's cells, in the order of the slice.
fn positions(size: usize) -> impl Iterator<Item = usize> {
    (0..size * size * size).map(move |i| morton([i % size, i / size % size, i / size / size]))
}

/// The refusal of either call on planes (SCOPE 10.4), 0 for none: 28 in place of 1, 6, and 29 where the bytes are not 2 × size³.
fn planes_refusal(cells: usize, size: usize, bytes: usize) -> u32 {
    if !PLANES.contains(&size) {
        28
    } else if cells != size * size * size {
        6
    } else if bytes != 2 * size * size * size {
        29
    } else {
        0
    }
}

/// All low bytes in Morton order, then all high bytes.
pub fn to_planes(cells: &[u16], size: usize, bytes: &mut [u8]) -> Reply {
    let number = planes_refusal(cells.len(), size, bytes.len());
    if number != 0 {
        return refused(number);
    }
    for (&id, position) in cells.iter().zip(positions(size)) {
        bytes[position] = (id % 256) as u8;
        bytes[cells.len() + position] = (id / 256) as u8;
    }
    accepted(0)
}

/// The cells whose planes these bytes are.
pub fn from_planes(bytes: &[u8], size: usize, cells: &mut [u16]) -> Reply {
    let number = planes_refusal(cells.len(), size, bytes.len());
    if number != 0 {
        return refused(number);
    }
    let many = cells.len();
    for (id, position) in cells.iter_mut().zip(positions(size)) {
        *id = u16::from(bytes[position]) + 256 * u16::from(bytes[many + position]);
    }
    accepted(0)
}
