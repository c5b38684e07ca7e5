//! The other sides of the benchmark's rows of planes: plain Rust with a loop over the bits of each cell, built for the
//! x86-64 baseline as the rest of the driver, and a straight copy of as many bytes.
use crate::rng::Rng;

const PAGE: usize = 4096;

/// A page of memory.
#[repr(align(4096))]
#[derive(Clone, PartialEq)]
struct Page([u8; PAGE]);

/// The cells and the bytes of a chunk. Both begin with a page: how two buffers lie to each other can double the time of a
/// short copy.
#[derive(Clone, PartialEq)]
pub struct Buffers {
    cells: Vec<Page>,
    bytes: Vec<Page>,
}

impl Buffers {
    /// Buffers for a size of 16 or above, which are whole pages, filled with any numbers.
    pub fn new(size: usize) -> Self {
        let mut rng = Rng::new(6);
        let pages = 2 * size.pow(3) / PAGE;
        let mut filled = || (0..pages).map(|_| any_page(&mut rng)).collect();
        Buffers {
            cells: filled(),
            bytes: filled(),
        }
    }

    /// The cells and the bytes.
    pub fn lent(&mut self) -> (&mut [u16], &mut [u8]) {
        // A page has no gap, each of its bytes is a number, and any two are one of 16 bits.
        unsafe { (self.cells.align_to_mut().1, self.bytes.align_to_mut().1) }
    }
}

fn any_page(rng: &mut Rng) -> Page {
    Page(std::array::from_fn(|_| rng.draw() as u8))
}

/// The position of a cell whose coordinates have so many bits.
fn position(bits: u32, x: usize, y: usize, z: usize) -> usize {
    let mut position = 0;
    for bit in 0..bits {
        let three = (x >> bit & 1) | (y >> bit & 1) << 1 | (z >> bit & 1) << 2;
        position |= three << (3 * bit);
    }
    position
}

/// Calls this with the index and the position of each cell, in the order of the slice.
fn each(size: usize, mut call: impl FnMut(usize, usize)) {
    let bits = size.trailing_zeros();
    let mut i = 0;
    for z in 0..size {
        for y in 0..size {
            for x in 0..size {
                call(i, position(bits, x, y, z));
                i += 1;
            }
        }
    }
}

/// The planes of the cells, of a size and with bytes that fit.
#[inline(never)]
pub fn to_planes(cells: &[u16], size: usize, bytes: &mut [u8]) {
    let (low, high) = bytes.split_at_mut(cells.len());
    each(size, |i, position| {
        low[position] = cells[i] as u8;
        high[position] = (cells[i] >> 8) as u8;
    });
}

/// The cells of the planes, of a size and with cells that fit.
#[inline(never)]
pub fn from_planes(bytes: &[u8], size: usize, cells: &mut [u16]) {
    let (low, high) = bytes.split_at(cells.len());
    each(size, |i, position| {
        cells[i] = u16::from_le_bytes([low[position], high[position]]);
    });
}

/// As many bytes as the planes have, straight from the cells.
#[inline(never)]
pub fn copy_to(cells: &[u16], bytes: &mut [u8]) {
    // Every number is a byte, and a byte lies anywhere.
    let (_, whole, _) = unsafe { cells.align_to::<u8>() };
    bytes.copy_from_slice(whole);
}

/// The same the other way.
#[inline(never)]
pub fn copy_from(bytes: &[u8], cells: &mut [u16]) {
    let (_, whole, _) = unsafe { cells.align_to_mut::<u8>() };
    whole.copy_from_slice(bytes);
}
