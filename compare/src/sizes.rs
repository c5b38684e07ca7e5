//! Chunk sizes (SCOPE 4.16): a cube of the world is laid in chunks of one size and of another, and both have one ground.
//! Boulders and trees break off at chunk edges. So each cell must hold what the original has there in chunks of size 2,
//! which have neither, or a boulder, trunk or leaf; and a column's height and biome must be the same.
use crate::chunk::STALE;
use crate::ground::{self, biome_at, biome_by, chunk_with, height_at, height_by, in_biome, reach};
use crate::ground::{rust_generate, Generate, Laid, Site};
use crate::idle::note;
use crate::meets::Met;
use crate::product;
use crate::report::Report;
use crate::rng::Rng;
use crate::seeds;
use original::block::{AIR, DIRT, LEAVES, LOG, SAND, SNOW, STONE, WATER};
use original::terrain::Biome;
use std::collections::{BTreeMap, BTreeSet};

/// A cube of the world: its first cell, as a chunk of size 1, and its edge.
#[derive(Clone, Copy, Debug)]
pub struct Region {
    pub corner: Site,
    pub edge: i32,
}

impl Region {
    /// Its first cell along x, y and z.
    fn first(&self) -> [i32; 3] {
        [self.corner.cx, self.corner.cy, self.corner.cz]
    }

    /// Its last cell.
    fn last(&self) -> [i32; 3] {
        self.first().map(|w| w + self.edge - 1)
    }

    fn cells(&self) -> usize {
        self.edge.pow(3) as usize
    }

    /// The world cell with this index, in the order of a chunk's cells.
    fn place(&self, i: usize) -> [i32; 3] {
        let (n, i) = (self.edge, i as i32);
        let [x, y, z] = self.first();
        [x + i % n, y + i / n % n, z + i / n / n]
    }

    /// Its settings with another size.
    fn of(&self, chunk_size: usize) -> Site {
        Site {
            chunk_size,
            ..self.corner
        }
    }
}

/// A region, the two sizes in which it is laid, and the columns whose height and biome are read.
pub struct Trial {
    pub region: Region,
    pub pair: [usize; 2],
    pub columns: Vec<[i32; 2]>,
}

/// A region's cells, out of chunks of one size.
struct Tiling {
    cells: Vec<u16>,
    /// The first chunk whose answer is not the number of its cells that are not air.
    miscounted: Option<(Site, Laid)>,
}

/// Lays every chunk of this size that has a cell of the region, whole, and takes the region's cells out of them.
fn tile(region: &Region, size: usize, generate: Generate) -> Tiling {
    let mut chunks = BTreeMap::new();
    let mut miscounted = None;
    let mut lay = |s: &Site| {
        let mut cells = vec![STALE; size.pow(3)];
        let answer = generate(s, &mut cells);
        let count = cells.iter().filter(|&&id| id != AIR).count() as u32;
        if answer != Laid::Count(count) {
            miscounted.get_or_insert((*s, answer));
        }
        cells
    };
    let cells = (0..region.cells()).map(|n| {
        let (s, i) = chunk_with(&region.of(size), region.place(n));
        chunks.entry([s.cx, s.cy, s.cz]).or_insert_with(|| lay(&s))[i]
    });
    Tiling {
        cells: cells.collect(),
        miscounted,
    }
}

/// Whether this id is a feature there: a leaf, a trunk of a forest or of plains, or a boulder of a mountain, and both stand
/// at the column's height or above (SCOPE 4.11 to 4.13). A cell of the ground is none of these.
fn is_feature(s: &Site, [wx, wy, wz]: [i32; 3], id: u16) -> bool {
    let stands_on = |biomes: &[Biome]| biomes.contains(&biome_at(s, wx, wz)) && wy >= height_at(s, wx, wz);
    match id {
        LEAVES => true,
        LOG => stands_on(&[Biome::Forest, Biome::Plains]),
        STONE => stands_on(&[Biome::Mountain]),
        _ => false,
    }
}

/// Whether a feature may take the place of this cell: each that of air, and a boulder that of water. Nothing of a tree
/// meets water, since the tree's column ends 3 above the sea or more.
fn gives_way(base: u16, id: u16) -> bool {
    base == AIR || (base == WATER && id == STONE)
}

/// A region laid three times: by the original in chunks of size 2, the base, and by a library in chunks of both sizes.
struct Laying<'a> {
    trial: &'a Trial,
    base: Vec<u16>,
    tilings: [Tiling; 2],
}

impl Laying<'_> {
    /// The ids of a cell at both sizes.
    fn ids(&self, i: usize) -> [u16; 2] {
        [self.tilings[0].cells[i], self.tilings[1].cells[i]]
    }

    fn feature(&self, i: usize, id: u16) -> bool {
        let region = &self.trial.region;
        is_feature(&region.corner, region.place(i), id)
    }

    /// The first cell of a tiling that has neither the base's id nor a feature that may be there.
    fn strange(&self, side: usize) -> Option<usize> {
        (0..self.base.len()).find(|&i| {
            let (base, id) = (self.base[i], self.ids(i)[side]);
            id != base && !(gives_way(base, id) && self.feature(i, id))
        })
    }

    /// The first cell that differs from one size to the other, and is a feature in neither.
    fn apart(&self) -> Option<usize> {
        (0..self.base.len()).find(|&i| {
            let [a, b] = self.ids(i);
            a != b && !self.feature(i, a) && !self.feature(i, b)
        })
    }

    /// What a cell is at both sizes and in the base.
    fn text(&self, i: Option<usize>) -> String {
        let Some(i) = i else {
            return String::new();
        };
        let ([a, b], [of_a, of_b], base) = (self.trial.pair, self.ids(i), self.base[i]);
        let (place, region) = (self.trial.region.place(i), self.trial.region);
        format!("{place:?} of {region:?}: {of_a} in chunks of {a}, {of_b} in chunks of {b}, base {base}")
    }

    /// The claims on cells, each one comparison: both answers, both tilings by themselves, one against the other.
    fn compare(&self, report: &mut Report) {
        for (side, size) in self.trial.pair.into_iter().enumerate() {
            let miscounted = self.tilings[side].miscounted;
            report.same(miscounted.is_none(), || {
                format!("the answer is not the number of blocks: {miscounted:?}")
            });
            let strange = self.strange(side);
            report.same(strange.is_none(), || {
                format!("no ground and no feature at size {size}: {}", self.text(strange))
            });
        }
        let apart = self.apart();
        report.same(apart.is_none(), || {
            format!("no feature in either, and not equal: {}", self.text(apart))
        });
    }

    /// Notes the kinds of blocks of the base.
    fn note_base(&self, met: &mut Met) {
        let (n, base) = (self.trial.region.edge as usize, &self.base);
        let over = |upper: &dyn Fn(u16) -> bool, lower: u16| {
            let level = |i: usize| i / n % n;
            (0..base.len()).any(|i| level(i) > 0 && upper(base[i]) && base[i - n] == lower)
        };
        let kinds = [
            ("water", base.contains(&WATER)),
            ("snow", base.contains(&SNOW)),
            ("the top of the sea", over(&|id| id == AIR, WATER)),
            ("a cave", over(&|id| id != AIR, AIR)),
            ("a beach", over(&|id| id == SAND, DIRT)),
        ];
        note_all(met, &kinds);
    }

    /// Notes the features of both tilings.
    fn note_features(&self, met: &mut Met) {
        for (i, &base) in self.base.iter().enumerate() {
            let [a, b] = self.ids(i);
            let (more, other) = if a == base { (b, a) } else { (a, b) };
            if more == base {
                continue;
            }
            let name = feature_name(more);
            if other == base {
                note(met, format!("a {name} at one size only"));
            } else if other == more {
                note(met, format!("a {name} at both sizes"));
            }
            if base == WATER {
                note(met, format!("a {name} in water"));
            }
        }
        let equal = self.tilings[0].cells == self.tilings[1].cells;
        note_all(
            met,
            &[("two equal tilings", equal), ("two unequal tilings", !equal)],
        );
    }
}

/// The name of a feature of this block.
fn feature_name(id: u16) -> &'static str {
    match id {
        LEAVES => "leaf",
        LOG => "trunk",
        _ => "boulder",
    }
}

/// Notes each kind that was met.
fn note_all(met: &mut Met, kinds: &[(&str, bool)]) {
    let all = kinds.iter().filter(|(_, meets)| *meets);
    all.for_each(|(kind, _)| note(met, kind.to_string()));
}

/// The block of which every chunk of this size is that has a cell of the region, where the places alone say so: stone, where
/// all lie deeper than 8 below the lowest column's top, and air above the sea and above a boulder on the highest column.
fn by_place(region: &Region, size: usize) -> Option<&'static str> {
    let n = size as i32;
    let [low, high] = [region.first()[1], region.last()[1]].map(|w| w.div_euclid(n) * n);
    let s = &region.corner;
    if high + n - 1 <= -8 {
        Some("stone")
    } else if low >= s.sea_level.max(s.world_height_blocks + 4) {
        Some("air")
    } else {
        None
    }
}

/// Notes where a region lies.
fn note_region(met: &mut Met, t: &Trial) {
    let (first, last) = (t.region.first(), t.region.last());
    let places = |size: usize, world: [i32; 3]| world.map(|w| w.div_euclid(size as i32));
    let around = |axis: usize| first[axis] < 0 && last[axis] >= 0;
    let least = |&size: &usize| places(size, first) == [reach(size).0; 3];
    let greatest = |&size: &usize| places(size, last) == [reach(size).1; 3];
    note_all(
        met,
        &[
            ("a seed above 65,535", t.region.corner.seed > seeds::OLDER),
            ("places on both sides of zero", (0..3).all(around)),
            ("the least place of a size", t.pair.iter().any(least)),
            ("the greatest place of a size", t.pair.iter().any(greatest)),
        ],
    );
    let [a, b] = t.pair.map(|size| by_place(&t.region, size));
    if let (Some(block), None) | (None, Some(block)) = (a, b) {
        note(met, format!("only {block} by the place alone at one size"));
    }
}

/// Whether a column is on the rim of its chunk, where no boulder stands.
fn on_rim(size: usize, column: [i32; 2]) -> bool {
    let n = size as i32;
    column.iter().any(|w| [0, n - 1].contains(&w.rem_euclid(n)))
}

/// The biome of a column at one size, and its height where no boulder can be taken for its top, against the original's.
fn column(report: &mut Report, generate: Generate, s: &Site, [wx, wz]: [i32; 2], met: &mut Met) {
    let (biome, ours) = (biome_at(s, wx, wz), biome_by(generate, s, wx, wz));
    report.same(biome == ours, || {
        format!("column ({wx}, {wz}) of {s:?}: the biome is {biome:?} in Rust, here {ours:?}")
    });
    note(met, format!("a column of {biome:?}"));
    let rim = on_rim(s.chunk_size, [wx, wz]);
    if biome == Biome::Mountain && !rim {
        return;
    }
    let (height, ours) = (height_at(s, wx, wz), height_by(generate, s, wx, wz));
    report.same(height == ours, || {
        format!("column ({wx}, {wz}) of {s:?}: the height is {height} in Rust, here {ours}")
    });
    note(met, format!("a height of {biome:?}"));
    if !rim {
        note(met, "a height inside a chunk".into());
    }
}

/// What a run did.
#[derive(Default)]
pub struct Done {
    pub regions: u64,
    pub cells: u64,
    pub sizes: BTreeSet<usize>,
    pub met: Met,
}

/// One region, laid both ways.
pub fn compare(report: &mut Report, generate: Generate, t: &Trial, done: &mut Done) {
    let laying = Laying {
        trial: t,
        base: tile(&t.region, 2, &rust_generate).cells,
        tilings: t.pair.map(|size| tile(&t.region, size, generate)),
    };
    laying.compare(report);
    laying.note_base(&mut done.met);
    laying.note_features(&mut done.met);
    note_region(&mut done.met, t);
    for size in t.pair {
        for &at in &t.columns {
            column(report, generate, &t.region.of(size), at, &mut done.met);
        }
    }
    done.regions += 1;
    done.cells += t.region.cells() as u64;
    done.sizes.extend(t.pair);
}

/// Where a region lies.
#[derive(Clone, Copy)]
enum Spot {
    Surface(Biome),
    /// Under the top of a column.
    Below,
    /// Around the world's first cell, with columns that end near it.
    Zero,
    /// The first or the last cells that lie in chunks of both sizes.
    Least,
    Greatest,
    /// The surface at the ends of x and z.
    Ends,
    /// Around and below level -8, where the lowest columns' blocks end and all is stone.
    Deep,
    /// Around and above the top of the world.
    Sky,
    /// The surface under water.
    Water,
    /// The surface at most 2 above the sea.
    Beach,
    /// The surface with any settings, anywhere.
    Any,
}

const SPOTS: [Spot; 14] = [
    Spot::Surface(Biome::Forest),
    Spot::Surface(Biome::Mountain),
    Spot::Surface(Biome::Plains),
    Spot::Surface(Biome::Desert),
    Spot::Below,
    Spot::Zero,
    Spot::Least,
    Spot::Greatest,
    Spot::Ends,
    Spot::Deep,
    Spot::Sky,
    Spot::Water,
    Spot::Beach,
    Spot::Any,
];

/// The sea level and the world's height for a spot.
fn levels(rng: &mut Rng, spot: Spot) -> (i32, i32) {
    match spot {
        Spot::Below => (rng.pick(&[24, 100, 180]), 256),
        Spot::Zero => (rng.pick(&[-60, -20, -10]), 256),
        Spot::Deep => (rng.pick(&[-4096, -100, -20]), rng.pick(&[2, 256])),
        Spot::Sky => (24, rng.pick(&[41, 56, 64])),
        Spot::Water => (rng.pick(&[100, 70, 66]), 64),
        Spot::Beach => (60, rng.pick(&[62, 63])),
        Spot::Any => {
            let any = ground::settings(rng, 1);
            (any.sea_level, any.world_height_blocks)
        }
        _ => (rng.pick(&[24, 24, -10]), 256),
    }
}

/// The biome at the middle of a region, for a spot where it is to be one of some.
fn biome_of(rng: &mut Rng, spot: Spot) -> Option<Biome> {
    use Biome::{Desert, Forest, Mountain, Plains};
    match spot {
        Spot::Surface(biome) => Some(biome),
        Spot::Deep => Some(rng.pick(&[Desert, Forest])),
        Spot::Sky | Spot::Water => Some(rng.pick(&[Mountain, Mountain, Plains])),
        Spot::Beach => Some(rng.pick(&[Forest, Plains])),
        _ => None,
    }
}

/// The first and the last world cell along an axis that lie in chunks of both sizes.
fn common(pair: [usize; 2]) -> (i32, i32) {
    let ends = pair.map(|size| {
        let ((least, most), n) = (reach(size), size as i32);
        (least * n, most * n + n - 1)
    });
    (ends[0].0.max(ends[1].0), ends[0].1.min(ends[1].1))
}

/// The first x and z of a region. The last that it may have is `end`.
fn across(rng: &mut Rng, spot: Spot, s: &Site, edge: i32, (low, end): (i32, i32)) -> [i32; 2] {
    if let Some(biome) = biome_of(rng, spot) {
        let cubes = Site {
            chunk_size: edge as usize,
            ..*s
        };
        let there = in_biome(rng, cubes, biome);
        return [there.cx * edge, there.cz * edge];
    }
    let mut any = |least: i32, most: i32| rng.range(least.into(), most.into()) as i32;
    match spot {
        Spot::Zero => [any(1 - edge, -1), any(1 - edge, -1)],
        Spot::Least => [low, low],
        Spot::Greatest => [end, end],
        Spot::Ends => [[low, end], [end, low]][any(0, 1) as usize],
        _ => [any(low, end), any(low, end)],
    }
}

/// The first y of a region whose x and z are known.
fn upward(rng: &mut Rng, spot: Spot, s: &Site, edge: i32, (low, end): (i32, i32)) -> i32 {
    let height = height_at(s, s.cx + edge / 2, s.cz + edge / 2);
    let mut any = |least: i32, most: i32| rng.range(least.into(), most.into()) as i32;
    match spot {
        Spot::Below => height - edge - any(0, 20),
        Spot::Zero => any(1 - edge, -1),
        Spot::Least => low,
        Spot::Greatest => end,
        Spot::Deep => any(-40, 4) - edge,
        Spot::Sky => s.sea_level.max(s.world_height_blocks) + any(-edge, 40),
        _ => height - any(1, edge / 2),
    }
}

/// A region at a spot, for a pair of sizes.
fn region(rng: &mut Rng, pair: [usize; 2], spot: Spot) -> Region {
    let most = if pair.contains(&1) { 20 } else { 40 };
    let edge = rng.range(8, most) as i32;
    let (sea_level, world_height_blocks) = levels(rng, spot);
    let mut corner = Site {
        seed: seeds::any(rng),
        sea_level,
        world_height_blocks,
        chunk_size: 1,
        cx: 0,
        cy: 0,
        cz: 0,
    };
    let (low, high) = common(pair);
    let within = (low, high + 1 - edge);
    [corner.cx, corner.cz] = across(rng, spot, &corner, edge, within);
    corner.cy = upward(rng, spot, &corner, edge, within);
    Region { corner, edge }
}

/// A column of the region, or in half of the cases one that is on the rim of its chunk at both sizes: at one by x, at the
/// other by z.
fn any_column(rng: &mut Rng, region: &Region, pair: [usize; 2]) -> [i32; 2] {
    let [x, _, z] = region.place(rng.below(region.cells() as u64) as usize);
    let [a, b] = pair.map(|size| size as i32);
    let moved = [x - x.rem_euclid(a), z - z.rem_euclid(b)];
    if rng.once_in(2) && moved.iter().all(|&w| w >= common(pair).0) {
        moved
    } else {
        [x, z]
    }
}

fn any_trial(rng: &mut Rng, pair: [usize; 2], spot: Spot) -> Trial {
    let region = region(rng, pair, spot);
    let many = if pair[0].max(pair[1]) > 32 { 1 } else { 3 };
    let columns = (0..many).map(|_| any_column(rng, &region, pair)).collect();
    Trial {
        region,
        pair,
        columns,
    }
}

/// How much a run does.
pub struct Amount {
    /// Regions at each spot for each named pair.
    pub named: u64,
    /// Regions for each size against any other.
    pub random: u64,
}

pub const FULL: Amount = Amount { named: 4, random: 12 };

/// The viewer's and the tablets' sizes, and sizes next to those where boulders or trees begin, or at the ends.
pub const NAMED: [[usize; 2]; 9] = [
    [16, 32],
    [5, 7],
    [64, 1],
    [32, 64],
    [1, 2],
    [3, 4],
    [4, 5],
    [63, 64],
    [2, 33],
];

/// The regions of a run.
pub fn trials(amount: &Amount) -> Vec<Trial> {
    let (mut rng, mut all) = (Rng::new(11), vec![]);
    for _ in 0..amount.named {
        for spot in SPOTS {
            all.extend(NAMED.map(|pair| any_trial(&mut rng, pair, spot)));
        }
    }
    for size in 1..=64 {
        for _ in 0..amount.random {
            let other = 1 + (size + rng.below(63) as usize) % 64;
            let spot = rng.pick(&SPOTS);
            all.push(any_trial(&mut rng, [size, other], spot));
        }
    }
    all
}

/// The kinds that a run is to meet.
pub fn kinds() -> Vec<String> {
    let plain = [
        "water",
        "the top of the sea",
        "snow",
        "a cave",
        "a beach",
        "a boulder in water",
        "two equal tilings",
        "two unequal tilings",
        "a seed above 65,535",
        "places on both sides of zero",
        "the least place of a size",
        "the greatest place of a size",
        "only stone by the place alone at one size",
        "only air by the place alone at one size",
        "a height inside a chunk",
    ];
    let mut all: Vec<String> = plain.map(String::from).into();
    for biome in [Biome::Desert, Biome::Mountain, Biome::Forest, Biome::Plains] {
        all.extend(["column", "height"].map(|what| format!("a {what} of {biome:?}")));
    }
    for name in ["boulder", "trunk", "leaf"] {
        all.extend(["one size only", "both sizes"].map(|how| format!("a {name} at {how}")));
    }
    all
}

/// Fails for what was never met.
pub fn close(report: &mut Report, done: &Done) {
    for kind in kinds() {
        if !done.met.contains_key(&kind) {
            report.fail(format!("no compared region has {kind}"));
        }
    }
    if done.sizes.len() < 64 {
        report.fail(format!("only these sizes were met: {:?}", done.sizes));
    }
}

pub fn run(report: &mut Report) {
    let (before, mut done) = (report.comparisons, Done::default());
    for t in trials(&FULL) {
        compare(report, &product::generate, &t, &mut done);
    }
    close(report, &done);
    let text: Vec<String> = done.met.iter().map(|(kind, n)| format!("{kind} {n}")).collect();
    println!("sizes: met {}, {} sizes", text.join(", "), done.sizes.len());
    println!(
        "sizes: {} regions, {} cells, {} comparisons",
        done.regions,
        done.cells,
        report.comparisons - before
    );
}
