//! The driver of chunk sizes on the original's ground, and on libraries with a slip each, some of them at some sizes only: it
//! must find every one of them.
use compare::chunk::STALE;
use compare::ground::{biome_at, height_at, reach, rust_generate, rust_ground, Generate, Laid, Site};
use compare::report::Report;
use compare::sizes::{close, compare, kinds, trials, Amount, Done, Trial};
use original::block::{AIR, DIRT, GRASS, GRAVEL, LEAVES, LOG, SNOW, STONE, WATER};
use original::noise::hash2;
use original::terrain::Biome;

const SMALL: Amount = Amount { named: 1, random: 1 };

/// The differences that the driver finds in these regions, to the first region that has one.
fn differences(trials: &[Trial], generate: Generate) -> u64 {
    let mut report = Report::quiet();
    for t in trials {
        compare(&mut report, generate, t, &mut Done::default());
        if report.differences > 0 {
            break;
        }
    }
    report.differences
}

#[test]
fn the_original_itself() {
    let (mut report, mut done) = (Report::default(), Done::default());
    for t in trials(&SMALL) {
        compare(&mut report, &rust_generate, &t, &mut done);
    }
    close(&mut report, &done);
    assert_eq!(report.differences, 0);
}

/// The base is laid in chunks of size 2: those and chunks of size 1 have no boulder and no tree, which larger ones have.
#[test]
fn the_base_has_no_feature() {
    let (mut report, mut small, mut large) = (Report::default(), Done::default(), Done::default());
    for t in trials(&SMALL) {
        match t.pair {
            [1, 2] => compare(&mut report, &rust_generate, &t, &mut small),
            [16, 32] => compare(&mut report, &rust_generate, &t, &mut large),
            _ => {}
        }
    }
    let feature = |kind: &String| {
        ["boulder", "trunk", "leaf"]
            .iter()
            .any(|name| kind.contains(name))
    };
    assert!(!small.met.keys().any(feature) && large.met.keys().any(feature));
    assert_eq!(small.met.get("two equal tilings"), Some(&small.regions));
    assert_eq!(report.differences, 0);
}

/// What a run that compares nothing misses.
#[test]
fn every_kind_is_asked_for() {
    let mut report = Report::quiet();
    close(&mut report, &Done::default());
    assert_eq!(report.failures, kinds().len() as u64 + 1);
}

type Library = Box<dyn Fn(&Site, &mut [u16]) -> Laid>;

/// The original's ground of other settings, or of another place.
fn elsewhere(other: impl Fn(&mut Site) + 'static) -> Library {
    Box::new(move |s, cells| {
        let mut s = *s;
        other(&mut s);
        rust_generate(&s, cells)
    })
}

/// The same at some sizes only.
fn at(sizes: impl Fn(usize) -> bool + 'static, other: impl Fn(&mut Site) + 'static) -> Library {
    elsewhere(move |s| {
        if sizes(s.chunk_size) {
            other(s);
        }
    })
}

/// The original's ground, altered and counted again.
fn altered(alter: impl Fn(&Site, &mut [u16]) + 'static) -> Library {
    Box::new(move |s, cells| {
        rust_generate(s, cells);
        alter(s, cells);
        Laid::Count(cells.iter().filter(|&&id| id != AIR).count() as u32)
    })
}

/// Another id for a cell, from its id and that of the cell above it in the chunk.
fn under(other: impl Fn(u16, u16) -> Option<u16> + 'static) -> Library {
    altered(move |s, cells| {
        let n = s.chunk_size;
        for i in (0..cells.len()).filter(|i| i / n % n + 1 < n) {
            cells[i] = other(cells[i], cells[i + n]).unwrap_or(cells[i]);
        }
    })
}

/// The chunk filled with one block, where this says so.
fn filled(id: u16, when: impl Fn(&Site) -> bool + 'static) -> Library {
    altered(move |s, cells| {
        if when(s) {
            cells.fill(id);
        }
    })
}

/// The world's level of a chunk's lowest cell.
fn lowest(s: &Site) -> i32 {
    s.cy * s.chunk_size as i32
}

/// The cells of size 5 moved by one along x: the last of a row are those of the next chunk.
fn moved(s: &Site, cells: &mut [u16]) {
    let next = rust_ground(&Site { cx: s.cx + 1, ..*s }).0;
    for row in (0..cells.len()).step_by(5).filter(|_| s.chunk_size == 5) {
        cells.copy_within(row + 1..row + 5, row);
        cells[row + 4] = next[row];
    }
}

/// x and z exchanged in chunks of odd sizes.
fn turned(s: &Site, cells: &mut [u16]) {
    let (n, before) = (s.chunk_size, cells.to_vec());
    if n % 2 == 1 {
        for (i, cell) in cells.iter_mut().enumerate() {
            *cell = before[i / n / n + n * (i / n % n + n * (i % n))];
        }
    }
}

/// The original's ground with another block in two cells of each boulder's column, from this level above its height on.
fn boulders(from: i32, id: u16) -> Library {
    altered(move |s, cells| {
        let n = s.chunk_size;
        for (x, z) in (1..n - 1).flat_map(|x| (1..n - 1).map(move |z| (x, z))) {
            let [wx, wz] = [(s.cx, x), (s.cz, z)].map(|(c, w)| c * n as i32 + w as i32);
            let [a, b] = [(wx, 31, 555), (wz, 37, 777)].map(|(w, m, c)| w.wrapping_mul(m).wrapping_add(c));
            if hash2(a, b) > 0.006 || biome_at(s, wx, wz) != Biome::Mountain {
                continue;
            }
            let first = height_at(s, wx, wz) + from - lowest(s);
            for y in (0..n).filter(|&y| (first..first + 2).contains(&(y as i32))) {
                cells[x + n * (y + n * z)] = id;
            }
        }
    })
}

/// Caves of a chunk's lowest layer filled up: air right under stone or dirt.
fn filled_floor(s: &Site, cells: &mut [u16]) {
    let n = s.chunk_size;
    let level = |i: usize| i / n % n;
    for i in (0..cells.len()).filter(|&i| level(i) == 0 && n > 1) {
        if cells[i] == AIR && [STONE, DIRT].contains(&cells[i + n]) {
            cells[i] = STONE;
        }
    }
}

/// No water above the world's top.
fn dry(s: &Site, cells: &mut [u16]) {
    let (n, low) = (s.chunk_size, lowest(s));
    for (i, cell) in cells.iter_mut().enumerate() {
        if *cell == WATER && low + (i / n % n) as i32 >= s.world_height_blocks {
            *cell = AIR;
        }
    }
}

/// Slips in the settings and the place.
fn of_sites() -> Vec<(&'static str, Library)> {
    let lower = |s: &mut Site| s.world_height_blocks = (s.world_height_blocks - 1).max(2);
    let exchanged = |s: &mut Site| std::mem::swap(&mut s.cx, &mut s.cz);
    let toward_zero = |s: &mut Site| s.cx += i32::from(s.cx < 0);
    let too_soon = |s: &mut Site| s.cx = s.cx.min(reach(s.chunk_size).1 - 1);
    vec![
        ("another seed at size 7", at(|n| n == 7, |s| s.seed += 1)),
        (
            "the size in the seed",
            elsewhere(|s| s.seed += s.chunk_size as u32),
        ),
        (
            "a sea one higher above size 16",
            at(|n| n > 16, |s| s.sea_level += 1),
        ),
        ("a world one lower at odd sizes", at(|n| n % 2 == 1, lower)),
        ("x and z exchanged above size 32", at(|n| n > 32, exchanged)),
        (
            "y by the place along x at size 33",
            at(|n| n == 33, |s| s.cy = s.cx),
        ),
        ("local x at size 16", at(|n| n == 16, |s| s.cx = 0)),
        ("local y at size 3", at(|n| n == 3, |s| s.cy = 0)),
        ("local z at size 64", at(|n| n == 64, |s| s.cz = 0)),
        (
            "places rounded toward zero at size 4",
            at(|n| n == 4, toward_zero),
        ),
        ("the last place that of before", elsewhere(too_soon)),
    ]
}

/// Slips in the base's cells, and in the answer.
fn of_cells() -> Vec<(&'static str, Library)> {
    let deep = |s: &Site| lowest(s) + s.chunk_size as i32 / 2 <= -8;
    let above_the_sea = |s: &Site| lowest(s) >= s.sea_level;
    let at_the_top = |s: &Site| lowest(s) >= s.sea_level.max(s.world_height_blocks - 2);
    let one_less: Library = Box::new(|s, cells| match rust_generate(s, cells) {
        Laid::Count(n) if n > 0 => Laid::Count(n - 1),
        answer => answer,
    });
    let refused: Library = Box::new(|s, cells| match s.cx == reach(s.chunk_size).1 {
        true => Laid::Refused(5),
        false => rust_generate(s, cells),
    });
    vec![
        ("a chunk moved by one along x at size 5", altered(moved)),
        ("x and z of the cells exchanged at odd sizes", altered(turned)),
        ("no cave in the lowest layer", altered(filled_floor)),
        ("no water above the world", altered(dry)),
        (
            "the last cell as it came",
            altered(|_, cells| cells[cells.len() - 1] = STALE),
        ),
        ("stone where the middle is deep", filled(STONE, deep)),
        (
            "air where the chunk begins above the sea",
            filled(AIR, above_the_sea),
        ),
        ("air from the highest block on", filled(AIR, at_the_top)),
        ("a count one less", one_less),
        ("the last place refused", refused),
    ]
}

/// Slips in boulders and trees that alter the base, or are none that the scope has.
fn of_features() -> Vec<(&'static str, Library)> {
    let under_trunk = |id: u16| move |below: u16, above: u16| (below == GRASS && above == LOG).then_some(id);
    let shore = |below: u16, above: u16| (below == WATER && above != WATER).then_some(LEAVES);
    let of_stone = |below: u16, _: u16| (below == LOG).then_some(STONE);
    let snow = |below: u16, above: u16| (below == AIR && above == LEAVES).then_some(SNOW);
    vec![
        ("boulders of gravel", boulders(0, GRAVEL)),
        ("boulders of logs", boulders(0, LOG)),
        ("a boulder that begins one lower", boulders(-1, STONE)),
        ("a trunk that begins one lower", under(under_trunk(LOG))),
        ("a leaf in place of grass", under(under_trunk(LEAVES))),
        ("a leaf in place of water", under(shore)),
        ("trunks of stone", under(of_stone)),
        ("snow under leaves", under(snow)),
    ]
}

/// The cells alone must show each slip: no column's height or biome is read.
#[test]
fn every_slip_is_found() {
    let mut all = trials(&SMALL);
    all.iter_mut().for_each(|t| t.columns.clear());
    // Nor have the makers of slips a difference, where they are given none.
    assert_eq!(differences(&all, &*elsewhere(|_| {})), 0);
    assert_eq!(differences(&all, &*altered(|_, _| {})), 0);
    let slips: Vec<_> = [of_sites(), of_cells(), of_features()]
        .into_iter()
        .flatten()
        .collect();
    for (name, slip) in &slips {
        assert!(differences(&all, slip) > 0, "{name}: not found");
    }
    assert_eq!(slips.len(), 29);
}

/// Slips in worlds of heights that no region has: only the columns' heights and biomes show them.
#[test]
fn every_slip_of_a_column_is_found() {
    let mut all = trials(&SMALL);
    all.retain(|t| t.region.corner.world_height_blocks == 256);
    let no_lower = |s: &mut Site| s.world_height_blocks = s.world_height_blocks.max(30);
    let flat = |s: &mut Site| s.seed += u32::from(s.world_height_blocks == 2);
    assert!(differences(&all, &*at(|n| n == 32, no_lower)) > 0, "height");
    assert!(differences(&all, &*at(|n| n == 63, flat)) > 0, "biome");
}
