//! The ground, cell by cell: `TerrainGenerator::generate` against the product's `generate`.
use crate::chunk::STALE;
use crate::product;
use crate::report::Report;
use crate::rng::Rng;
use crate::seeds;
use crate::seen::Seen;
use original::terrain::{TerrainConfig, TerrainGenerator};

/// The settings and the place of a chunk: the seven numbers of its header.
#[derive(Clone, Copy, Debug, PartialEq)]
pub struct Site {
    pub seed: u32,
    pub sea_level: i32,
    pub world_height_blocks: i32,
    pub chunk_size: usize,
    pub cx: i32,
    pub cy: i32,
    pub cz: i32,
}

/// What `generate` answers.
#[derive(Clone, Copy, Debug, PartialEq)]
pub enum Laid {
    Count(u32),
    Refused(u32),
}

/// The original's cells and their count.
pub fn rust_ground(s: &Site) -> (Vec<u16>, u32) {
    let config = TerrainConfig {
        seed: s.seed,
        sea_level: s.sea_level,
        world_height_blocks: s.world_height_blocks,
        chunk_size: s.chunk_size,
    };
    let mut generator = TerrainGenerator::new(config).expect("the size is within its limit");
    let chunk = generator
        .generate(s.cx, s.cy, s.cz)
        .expect("the size is within its limit");
    (chunk.blocks().to_vec(), chunk.non_air_blocks())
}

/// The least and the greatest place along an axis for this size.
pub fn reach(size: usize) -> (i32, i32) {
    let size = size as i32;
    (-(1_000_000 / size), (1_000_001 - size) / size)
}

/// What a library lays at a place in the cells that it is lent, and its answer.
pub type Generate<'a> = &'a dyn Fn(&Site, &mut [u16]) -> Laid;

/// The original as a library.
pub fn rust_generate(s: &Site, cells: &mut [u16]) -> Laid {
    let (ours, count) = rust_ground(s);
    cells.copy_from_slice(&ours);
    Laid::Count(count)
}

/// The chunk of these settings that has a world cell, and the cell's index in it (SCOPE 2.2, 5.1).
pub fn chunk_with(s: &Site, place: [i32; 3]) -> (Site, usize) {
    let n = s.chunk_size;
    let [cx, cy, cz] = place.map(|w| w.div_euclid(n as i32));
    let [x, y, z] = place.map(|w| w.rem_euclid(n as i32) as usize);
    (Site { cx, cy, cz, ..*s }, x + n * (y + n * z))
}

/// A library's cell at a world place, in a world of another height.
fn probe(generate: Generate, s: &Site, world_height_blocks: i32, place: [i32; 3]) -> u16 {
    let lower = Site {
        world_height_blocks,
        ..*s
    };
    let (there, i) = chunk_with(&lower, place);
    let mut cells = vec![STALE; s.chunk_size.pow(3)];
    generate(&there, &mut cells);
    cells[i]
}

/// Whether a block is ground: neither air nor water, nor of a tree.
fn is_ground(id: u16) -> bool {
    use original::block::{AIR, LEAVES, LOG, WATER};
    ![AIR, WATER, LOG, LEAVES].contains(&id)
}

/// The height of a library's column, where no boulder stands. A lower world cuts a column off at its top, and the top
/// cell of a column is never carved: so the height is found by halving the world's height.
pub fn height_by(generate: Generate, s: &Site, wx: i32, wz: i32) -> i32 {
    let (mut low, mut high) = (2, s.world_height_blocks);
    while low < high {
        let middle = (low + high + 1) / 2;
        if is_ground(probe(generate, s, middle, [wx, middle - 2, wz])) {
            low = middle;
        } else {
            high = middle - 1;
        }
    }
    low - 1
}

/// The biome of a library's column, read from the blocks at depths 2 and 5 of a world of height
/// 2, where no cave is carved: gravel is desert, dirt at 5 forest, dirt at 2 only plains.
pub fn biome_by(generate: Generate, s: &Site, wx: i32, wz: i32) -> original::terrain::Biome {
    use original::block::{DIRT, GRAVEL};
    use original::terrain::Biome;
    let [deeper, upper] = [-4, -1].map(|wy| probe(generate, s, 2, [wx, wy, wz]));
    match (deeper, upper) {
        (GRAVEL, _) => Biome::Desert,
        (DIRT, _) => Biome::Forest,
        (_, DIRT) => Biome::Plains,
        _ => Biome::Mountain,
    }
}

/// These settings with chunks of size 1, where no boulder and no tree stands.
fn of_one(s: &Site) -> Site {
    Site { chunk_size: 1, ..*s }
}

/// The height of the original's column.
pub fn height_at(s: &Site, wx: i32, wz: i32) -> i32 {
    height_by(&rust_generate, &of_one(s), wx, wz)
}

/// The original's biome of a column.
pub fn biome_at(s: &Site, wx: i32, wz: i32) -> original::terrain::Biome {
    biome_by(&rust_generate, &of_one(s), wx, wz)
}

/// A place whose middle column has this biome.
pub fn in_biome(rng: &mut Rng, s: Site, biome: original::terrain::Biome) -> Site {
    let n = s.chunk_size as i32;
    loop {
        let there = Site {
            cx: rng.range(-300, 300) as i32,
            cz: rng.range(-300, 300) as i32,
            ..s
        };
        if biome_at(&there, there.cx * n + n / 2, there.cz * n + n / 2) == biome {
            return there;
        }
    }
}

/// Runs both sides on one chunk. Answers the original's cells.
pub fn chunk(report: &mut Report, s: &Site) -> Vec<u16> {
    chunk_of(report, s, &product::generate)
}

/// The same for any library.
pub fn chunk_of(report: &mut Report, s: &Site, generate: Generate) -> Vec<u16> {
    let (cells, count) = rust_ground(s);
    let mut ours = vec![STALE; cells.len()];
    let answer = generate(s, &mut ours);
    report.same(answer == Laid::Count(count), || {
        format!("{s:?}: Rust counts {count}, product answers {answer:?}")
    });
    report.same(ours == cells, || {
        let i = (0..cells.len()).find(|&i| ours[i] != cells[i]).unwrap_or(0);
        let n = s.chunk_size;
        format!(
            "{s:?}: cell ({}, {}, {}): Rust {}, product {}",
            i % n,
            i / n % n,
            i / n / n,
            cells[i],
            ours[i]
        )
    });
    cells
}

/// Settings at and inside their ends. A low world cuts columns off at its top: so (100, 64) shows
/// water, (60, 62) to (60, 65) the heights around sea + 2, where beaches end, and (24, 41) to (24, 72)
/// the heights where a mountain's top changes.
pub fn settings(rng: &mut Rng, chunk_size: usize) -> Site {
    let any_seed = rng.below(65_536) as u32;
    let any_sea = rng.range(-4096, 4096) as i32;
    let any_height = rng.range(2, 4096) as i32;
    let (sea_level, world_height_blocks) = match rng.below(13) {
        0..=4 => (24, 256),
        5 => (100, 64),
        6 => (60, rng.pick(&[62, 63, 64, 65])),
        7 => (rng.pick(&[-4096, -4095, -100, -1, 0, 1, 4095, 4096]), 256),
        8 => (24, rng.pick(&[2, 3, 4, 62, 64, 4095, 4096])),
        9 => (24, rng.pick(&[41, 42, 56, 57, 71, 72])),
        10 => (rng.pick(&[-4096, 4096]), rng.pick(&[2, 4096])),
        11 => (any_sea, 256),
        _ => (any_sea, any_height),
    };
    let seed = rng.pick(&[0, 0, 1, 65_535, any_seed, any_seed]);
    Site {
        seed,
        sea_level,
        world_height_blocks,
        chunk_size,
        cx: 0,
        cy: 0,
        cz: 0,
    }
}

/// A place along x or z: at both limits, around zero, or anywhere.
fn across(rng: &mut Rng, size: usize) -> i32 {
    let (least, most) = reach(size);
    match rng.below(8) {
        0 => least,
        1 => most,
        2 => rng.range(-3, 3) as i32,
        3 | 4 => rng.range(-200, 200).clamp(least as i64, most as i64) as i32,
        _ => rng.range(least as i64, most as i64) as i32,
    }
}

/// The place along y whose chunk has the surface of the column at the chunk's middle.
pub fn surface(s: &Site) -> i32 {
    let size = s.chunk_size as i32;
    let middle = size / 2;
    (height_at(s, s.cx * size + middle, s.cz * size + middle) - 1).div_euclid(size)
}

/// A place along y: the surface and its neighbours, the bottom, or anywhere up to the limits.
fn upward(rng: &mut Rng, s: &Site) -> i32 {
    let (least, most) = reach(s.chunk_size);
    let y = match rng.below(16) {
        0 => least,
        1 => most,
        2 => 0,
        3 => -1,
        4 => rng.range(least as i64, most as i64) as i32,
        5 => rng.range(0, 4096 / s.chunk_size as i64) as i32,
        6 => surface(s) + 1,
        7..=9 => surface(s) - 1 - rng.below(2) as i32,
        _ => surface(s),
    };
    y.clamp(least, most)
}

/// These settings at a place of any kind.
pub fn placed(rng: &mut Rng, mut s: Site) -> Site {
    s.cx = across(rng, s.chunk_size);
    s.cz = across(rng, s.chunk_size);
    s.cy = upward(rng, &s);
    s
}

fn random_site(rng: &mut Rng, size: usize) -> Site {
    let s = settings(rng, size);
    placed(rng, s)
}

/// Chunks of every size: both corners of the reach, around zero, and random ones.
fn every_size(report: &mut Report, rng: &mut Rng, seen: &mut Seen) {
    for size in 1..=64 {
        let (least, most) = reach(size);
        let plain = Site {
            seed: 0,
            sea_level: 24,
            world_height_blocks: 256,
            chunk_size: size,
            cx: 0,
            cy: 0,
            cz: 0,
        };
        let mut sites = vec![
            Site {
                cx: least,
                cy: least,
                cz: least,
                ..plain
            },
            Site {
                cx: most,
                cy: most,
                cz: most,
                seed: 65_535,
                ..plain
            },
            Site {
                cx: -1,
                cy: -1,
                cz: -1,
                seed: 1,
                ..plain
            },
            Site {
                cx: least,
                cz: most,
                cy: surface(&Site {
                    cx: least,
                    cz: most,
                    ..plain
                }),
                ..plain
            },
            Site {
                cx: most,
                cz: least,
                cy: surface(&Site {
                    cx: most,
                    cz: least,
                    ..plain
                }),
                ..plain
            },
            plain,
        ];
        let more = if size <= 16 {
            20
        } else if size <= 32 {
            6
        } else {
            2
        };
        sites.extend((0..more).map(|_| random_site(rng, size)));
        for s in sites {
            let cells = chunk(report, &s);
            if size <= 16 {
                seen.note(&s, &cells);
            }
        }
        seen.sizes += 1;
    }
}

/// Many small chunks.
fn small(report: &mut Report, rng: &mut Rng, seen: &mut Seen) {
    for n in 0..20_000 {
        let size = rng.pick(&[1, 2, 3, 4, 5, 5, 6, 7, 8, 8, 9, 10]);
        let s = random_site(rng, size);
        let cells = chunk(report, &s);
        if n % 4 == 0 {
            seen.note(&s, &cells);
        }
    }
}

/// Chunks of size 16 at the surface with the usual height, and the usual or a lower sea, half of
/// them in forests and mountains: for trees and boulders.
fn features(report: &mut Report, rng: &mut Rng, seen: &mut Seen) {
    use original::terrain::Biome;
    for n in 0..1600 {
        let seed = rng.pick(&[0, 1, 65_535, 4242]);
        let sea_level = rng.pick(&[24, 24, -10]);
        let s = Site {
            seed,
            sea_level,
            world_height_blocks: 256,
            chunk_size: 16,
            cx: 0,
            cy: 0,
            cz: 0,
        };
        let mut s = match n % 4 {
            0 => in_biome(rng, s, Biome::Forest),
            1 => in_biome(rng, s, Biome::Mountain),
            _ => Site {
                cx: rng.range(-400, 400) as i32,
                cz: rng.range(-400, 400) as i32,
                ..s
            },
        };
        s.cy = surface(&s) + rng.below(2) as i32;
        let cells = chunk(report, &s);
        seen.note(&s, &cells);
    }
}

/// The columns where x minus its floor is exactly 1.0, inside small chunks.
fn exact_ones(report: &mut Report) {
    for (wx, wz) in [(-30, 14146), (-20, 42603)] {
        for size in 1..=9i32 {
            for cy in 0..(96 / size) {
                let s = Site {
                    seed: 0,
                    sea_level: 24,
                    world_height_blocks: 256,
                    chunk_size: size as usize,
                    cx: i32::div_euclid(wx, size),
                    cy,
                    cz: i32::div_euclid(wz, size),
                };
                chunk(report, &s);
            }
        }
    }
}

/// The refusal of `generate`, 0 for none: 1 to 6 in this order (SCOPE 10.4).
fn refusal(s: &Site, cells: usize) -> u32 {
    let size = s.chunk_size as i128;
    let off = |c: i32| {
        let low = c as i128 * size;
        low < -1_000_000 || low + size - 1 > 1_000_000
    };
    if !(1..=64).contains(&size) {
        1
    } else if s.seed > seeds::MOST {
        2
    } else if !(-4096..=4096).contains(&s.sea_level) {
        3
    } else if !(2..=4096).contains(&s.world_height_blocks) {
        4
    } else if off(s.cx) || off(s.cy) || off(s.cz) {
        5
    } else if cells as i128 != size * size * size {
        6
    } else {
        0
    }
}

/// A place at, one inside or one outside a limit of the size, or an end of i32.
fn edge_place(rng: &mut Rng, size: usize) -> i32 {
    let (least, most) = reach(size.clamp(1, 64));
    rng.pick(&[
        0,
        0,
        0,
        least,
        least - 1,
        least + 1,
        most,
        most + 1,
        most - 1,
        i32::MIN,
        i32::MAX,
        -1,
    ])
}

fn edge_site(rng: &mut Rng) -> (Site, usize) {
    let chunk_size = rng.pick(&[
        1,
        2,
        3,
        5,
        7,
        64,
        63,
        0,
        65,
        4096,
        usize::MAX,
        1 << 32,
        (1 << 32) + 1,
    ]);
    let s = Site {
        seed: rng.pick(&[
            0,
            1,
            65_535,
            65_536,
            seeds::MOST,
            seeds::MOST,
            seeds::MOST + 1,
            u32::MAX,
        ]),
        sea_level: rng.pick(&[24, 0, -4096, 4096, -4097, 4097, i32::MIN, i32::MAX]),
        world_height_blocks: rng.pick(&[256, 2, 4096, 3, 1, 0, -1, 4097, i32::MIN, i32::MAX]),
        chunk_size,
        cx: edge_place(rng, chunk_size),
        cy: edge_place(rng, chunk_size),
        cz: edge_place(rng, chunk_size),
    };
    let full = chunk_size.saturating_pow(3).min(262_144);
    let cells = rng.pick(&[
        full,
        full,
        full,
        full - full.min(1),
        full + 1,
        0,
        chunk_size.min(64).pow(2),
    ]);
    (s, cells)
}

/// One refusal: the number is the first in the call's order, and no cell changes.
fn refused(report: &mut Report, s: &Site, cells: usize, number: u32) {
    let mut lent = vec![STALE; cells];
    let answer = product::generate(s, &mut lent);
    report.same(answer == Laid::Refused(number), || {
        format!("{s:?}, {cells} cells: wanted refusal {number}, product answers {answer:?}")
    });
    report.same(lent.iter().all(|&c| c == STALE), || {
        format!("{s:?}, {cells} cells: a refused call wrote cells")
    });
}

/// Refusals at and around each limit. A site that is accepted is compared as a chunk.
fn refusals(report: &mut Report, rng: &mut Rng) {
    let mut met = [0u64; 7];
    for _ in 0..60_000 {
        let (s, cells) = edge_site(rng);
        let number = refusal(&s, cells);
        met[number as usize] += 1;
        if number > 0 {
            refused(report, &s, cells, number);
        } else if s.chunk_size <= 7 {
            chunk(report, &s);
        }
    }
    for (number, &n) in met.iter().enumerate() {
        if n == 0 {
            report.fail(format!("refusal {number} of generate was never tried"));
        }
    }
    println!(
        "ground: refusals 1 to 6 tried {:?} times, {} accepted beside them",
        &met[1..],
        met[0]
    );
}

pub fn run(report: &mut Report) {
    let before = report.comparisons;
    let mut rng = Rng::new(2);
    let mut seen = Seen::default();
    every_size(report, &mut rng, &mut seen);
    small(report, &mut rng, &mut seen);
    features(report, &mut rng, &mut seen);
    exact_ones(report);
    println!("ground: {} chunks", (report.comparisons - before) / 2);
    seen.close(report);
    refusals(report, &mut rng);
    println!("ground: {} comparisons", report.comparisons - before);
}
