//! Writes generated chunks for compare/shelf to compress, each in index order and as planes.
//!   shelf FOLDER   makes FOLDER/index/SIZE and FOLDER/planes/SIZE for each size
use compare::ground::{Laid, Site};
use compare::product;
use original::block::{AIR, WATER};
use perillahinge::raw;
use std::path::Path;
use std::process::ExitCode;
use std::{env, fs, io};

const SIZES: [usize; 3] = [16, 32, 64];
const SEEDS: [u32; 2] = [7, 1_234_567];
const SEA: i32 = 24;
const HEIGHT: i32 = 64;

fn laid(s: &Site) -> Vec<u16> {
    let mut cells = vec![0; s.chunk_size.pow(3)];
    let answer = product::generate(s, &mut cells);
    assert!(matches!(answer, Laid::Count(_)), "{s:?} gets {answer:?}");
    cells
}

/// Whether at least a sixteenth of a chunk is solid: neither air nor water.
fn solid(s: &Site) -> bool {
    let cells = laid(s);
    let solid = cells.iter().filter(|&&id| id != AIR && id != WATER).count();
    16 * solid >= cells.len()
}

/// The highest solid chunk over a place, and the one below it. Under the world all is stone.
fn surface(s: Site) -> [Site; 2] {
    let top = HEIGHT / s.chunk_size as i32;
    let mut down = (-1..=top).rev().map(|cy| Site { cy, ..s });
    let found = down.find(solid).expect("stone under the world");
    [found.cy, found.cy - 1].map(|cy| Site { cy, ..s })
}

/// The chunks of a size: at 3 x 3 places in the world of each seed.
fn sites(chunk_size: usize) -> Vec<Site> {
    let at = |seed, place: i32| Site {
        seed,
        sea_level: SEA,
        world_height_blocks: HEIGHT,
        chunk_size,
        cx: place % 3 - 1,
        cy: 0,
        cz: place / 3 - 1,
    };
    let world = |seed| (0..9).flat_map(move |place| surface(at(seed, place)));
    SEEDS.into_iter().flat_map(world).collect()
}

/// The cells one after the other, the low byte of an id before the high one.
fn index_order(cells: &[u16]) -> Vec<u8> {
    cells.iter().flat_map(|id| id.to_le_bytes()).collect()
}

/// The planes of the cells, which must give the same cells back.
fn planes(cells: &[u16], size: usize) -> Vec<u8> {
    let (mut bytes, mut back) = (vec![0; 2 * cells.len()], vec![0; cells.len()]);
    let (n, m) = (cells.len(), bytes.len());
    let to = unsafe { raw::pl_to_planes(cells.as_ptr(), n, size, bytes.as_mut_ptr(), m) };
    let from = unsafe { raw::pl_from_planes(bytes.as_ptr(), m, size, back.as_mut_ptr(), n) };
    assert_eq!([to.number, from.number], [0, 0], "planes of size {size}");
    assert!(back == cells, "planes of size {size} give other cells back");
    bytes
}

/// Writes a chunk in both forms, under one name.
fn write(folder: &Path, s: &Site) -> io::Result<()> {
    let cells = laid(s);
    let planes = planes(&cells, s.chunk_size);
    let name = format!("{}_{}_{}_{}", s.seed, s.cx, s.cy, s.cz);
    for (form, bytes) in [("index", index_order(&cells)), ("planes", planes)] {
        let folder = folder.join(form).join(s.chunk_size.to_string());
        fs::create_dir_all(&folder)?;
        fs::write(folder.join(&name), bytes)?;
    }
    Ok(())
}

fn main() -> ExitCode {
    let Some(folder) = env::args_os().nth(1) else {
        eprintln!("shelf: no folder is named");
        return ExitCode::from(2);
    };
    let all: Vec<Site> = SIZES.into_iter().flat_map(sites).collect();
    match all.iter().try_for_each(|s| write(Path::new(&folder), s)) {
        Ok(()) => ExitCode::SUCCESS,
        Err(e) => {
            eprintln!("shelf: {e}");
            ExitCode::from(2)
        }
    }
}
