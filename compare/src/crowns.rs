//! The crowns of the trees (SCOPE 4.12 to 4.14): a chunk's leaves must be those that the nine radii of request Five give.
//! The trunks are read off the chunk; the leaves are taken away and laid again from a table.
use crate::ground::{biome_at, chunk, in_biome, reach, surface, Site};
use crate::idle::note;
use crate::meets::Met;
use crate::report::Report;
use crate::rng::Rng;
use original::block::{AIR, LEAVES, LOG};
use original::noise::hash2;
use original::terrain::Biome;
use std::ops::RangeInclusive;

/// The radii of a normal and of a giant crown's layers, from the lowest up.
#[derive(Clone, Copy, Debug, PartialEq)]
pub struct Table {
    pub normal: [i32; 4],
    pub giant: [i32; 5],
}

/// SCOPE 4.13.
pub const TABLE: Table = Table {
    normal: [1, 1, 2, 2],
    giant: [3, 3, 4, 4, 4],
};

impl Table {
    fn row(&self, giant: bool) -> &[i32] {
        if giant {
            &self.giant
        } else {
            &self.normal
        }
    }
}

/// A tree of a chunk: its column there and in the world, the level above its topmost log, which may lie above the chunk.
#[derive(Clone, Copy)]
struct Tree {
    x: i32,
    z: i32,
    wx: i32,
    wz: i32,
    top: i32,
    giant: bool,
}

fn index(n: usize, x: i32, y: i32, z: i32) -> usize {
    x as usize + n * (y as usize + n * z as usize)
}

/// The tree whose trunk begins in this column, unless the column has no log. The second part is whether the chunk's logs
/// are those of a trunk as high as the scope says.
fn tree(s: &Site, cells: &[u16], x: i32, z: i32) -> Option<(Tree, bool)> {
    let n = s.chunk_size;
    let size = n as i32;
    let logs: Vec<i32> = (0..size).filter(|&y| cells[index(n, x, y, z)] == LOG).collect();
    let base = *logs.first()?;
    let (wx, wz) = (s.cx * size + x, s.cz * size + z);
    let v = hash2(wx.wrapping_add(42), wz.wrapping_add(99));
    let giant = v < 0.08 && biome_at(s, wx, wz) == Biome::Forest;
    let trunk = if giant {
        8 + (v * 40.0) as i32
    } else {
        4 + (v * 3.0) as i32
    };
    let top = base + trunk;
    let whole = logs.into_iter().eq(base..top.min(size));
    let tree = Tree {
        x,
        z,
        wx,
        wz,
        top,
        giant,
    };
    Some((tree, whole))
}

/// Whether a layer of radius r has a leaf at this offset from the trunk. On the rim it depends on the hash.
fn leaf(t: &Tree, r: i32, dx: i32, dy: i32, dz: i32, met: &mut Met) -> bool {
    let d = dx * dx + dz * dz;
    if d != r * r + 1 {
        return d <= r * r;
    }
    let z = t.wz.wrapping_add(dz).wrapping_add(dy);
    let there = hash2(t.wx.wrapping_add(dx), z) <= 0.6;
    note(
        met,
        format!(
            "a rim of radius {r} {} its leaf",
            if there { "with" } else { "without" }
        ),
    );
    there
}

/// The leaves of one layer that lie in the chunk, into air alone.
fn lay(n: usize, t: &Tree, layer: usize, r: i32, cells: &mut [u16], met: &mut Met) {
    let (size, dy) = (n as i32, layer as i32 - 1);
    let (y, kind) = (t.top + dy, if t.giant { "giant" } else { "normal" });
    if y >= size {
        return note(met, format!("a {kind} crown cut off above"));
    }
    note(met, format!("layer {layer} of a {kind} crown"));
    for (dx, dz) in (-r..=r).flat_map(|dx| (-r..=r).map(move |dz| (dx, dz))) {
        if !leaf(t, r, dx, dy, dz, met) {
            continue;
        }
        let (x, z) = (t.x + dx, t.z + dz);
        if x.min(z) < 0 || x.max(z) >= size {
            note(met, format!("a {kind} crown cut off at a side"));
        } else if cells[index(n, x, y, z)] == AIR {
            cells[index(n, x, y, z)] = LEAVES;
        } else {
            note(met, format!("a leaf of a {kind} crown where there is a block"));
        }
    }
}

/// The chunk with its leaves laid again by a table, and whether every trunk is as high as the scope says.
pub fn relaid(s: &Site, cells: &[u16], table: &Table, met: &mut Met) -> (Vec<u16>, bool) {
    let n = s.chunk_size;
    let mut again: Vec<u16> = cells
        .iter()
        .map(|&id| if id == LEAVES { AIR } else { id })
        .collect();
    let mut trunks = true;
    for (z, x) in (0..n as i32).flat_map(|z| (0..n as i32).map(move |x| (z, x))) {
        let Some((t, whole)) = tree(s, cells, x, z) else {
            continue;
        };
        trunks &= whole;
        for (layer, &r) in table.row(t.giant).iter().enumerate() {
            lay(n, &t, layer, r, &mut again, met);
        }
    }
    (again, trunks)
}

/// How much a run does: which sizes, and how many chunks of a size up to 16 and of a larger one.
pub struct Amount {
    pub sizes: RangeInclusive<usize>,
    pub small: u64,
    pub large: u64,
}

pub const FULL: Amount = Amount {
    sizes: 1..=64,
    small: 120,
    large: 12,
};

/// A chunk at the surface in a forest or, more seldom, in plains.
fn site(rng: &mut Rng, chunk_size: usize) -> Site {
    let any_seed = rng.below(65_536) as u32;
    let s = Site {
        seed: rng.pick(&[0, 1, 65_535, any_seed]),
        sea_level: rng.pick(&[24, 24, -10, -4096]),
        world_height_blocks: 256,
        chunk_size,
        cx: 0,
        cy: 0,
        cz: 0,
    };
    let biome = rng.pick(&[Biome::Forest, Biome::Forest, Biome::Forest, Biome::Plains]);
    let mut s = in_biome(rng, s, biome);
    s.cy = surface(&s).clamp(reach(chunk_size).0, reach(chunk_size).1);
    s
}

/// What a library lays at a place.
pub type Ground<'a> = &'a dyn Fn(&mut Report, &Site) -> Vec<u16>;

/// A library's chunks, each by the table. Answers what was met.
pub fn compare(report: &mut Report, ground: Ground, amount: &Amount) -> Met {
    let (mut rng, mut met) = (Rng::new(5), Met::default());
    for size in amount.sizes.clone() {
        for _ in 0..if size <= 16 { amount.small } else { amount.large } {
            let s = site(&mut rng, size);
            let cells = ground(report, &s);
            let (again, trunks) = relaid(&s, &cells, &TABLE, &mut met);
            report.same(trunks && again == cells, || {
                match (0..cells.len()).find(|&i| again[i] != cells[i]) {
                    Some(i) => {
                        let (x, y, z) = (i % size, i / size % size, i / size / size);
                        let (by_radii, there) = (again[i], cells[i]);
                        format!("{s:?}: cell ({x}, {y}, {z}): by the radii {by_radii}, there {there}")
                    }
                    None => format!("{s:?}: a trunk is not as high as its hash says"),
                }
            });
        }
    }
    met
}

/// The kinds that a run is to meet: the nine layers, both cases of each radius' rim, crowns that are cut off.
pub fn kinds() -> Vec<String> {
    let mut all = vec![];
    for (kind, row) in [("normal", &TABLE.normal[..]), ("giant", &TABLE.giant[..])] {
        all.extend((0..row.len()).map(|layer| format!("layer {layer} of a {kind} crown")));
        all.push(format!("a {kind} crown cut off above"));
        all.push(format!("a leaf of a {kind} crown where there is a block"));
    }
    all.push("a giant crown cut off at a side".to_string());
    for r in 1..=4 {
        all.extend(["with", "without"].map(|w| format!("a rim of radius {r} {w} its leaf")));
    }
    all
}

/// Fails for what was never met.
pub fn close(report: &mut Report, met: &Met) {
    for kind in kinds() {
        if !met.contains_key(&kind) {
            report.fail(format!("the compared chunks have no {kind}"));
        }
    }
}

/// Chunks of the product and of the original, which must be equal: their leaves must be the table's.
pub fn run(report: &mut Report) {
    let before = report.comparisons;
    let met = compare(report, &chunk, &FULL);
    close(report, &met);
    let text: Vec<String> = met.iter().map(|(kind, n)| format!("{kind} {n}")).collect();
    println!("crowns: met {}", text.join(", "));
    println!("crowns: {} comparisons", report.comparisons - before);
}
