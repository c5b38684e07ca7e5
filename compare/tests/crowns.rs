//! The driver of crowns on the original's chunks, and on chunks whose leaves are laid by another table: it must find each of
//! these. The model's layers are held to numbers of cells worked out by hand.
use compare::crowns::{compare, kinds, relaid, Amount, Table, TABLE};
use compare::ground::{biome_at, rust_ground, Site};
use compare::meets::Met;
use compare::report::Report;
use original::block::{AIR, LEAVES, LOG};
use original::noise::hash2;
use original::terrain::Biome;

const SMALL: Amount = Amount {
    sizes: 28..=36,
    small: 0,
    large: 6,
};

/// The differences that the driver finds where the leaves are laid by this table.
fn by(table: &Table) -> u64 {
    let mut report = Report::quiet();
    let ground = |_: &mut Report, s: &Site| relaid(s, &rust_ground(s).0, table, &mut Met::default()).0;
    compare(&mut report, &ground, &SMALL);
    report.differences
}

/// Tables with one slip each: a radius one more or one less, both crowns tapered at their top, both upside down, the giant's
/// row one place early, the giant's row for the normal crown.
fn slips() -> Vec<Table> {
    let row = |normal, giant| Table { normal, giant };
    let mut all = vec![
        row([1, 1, 2, 1], [3, 3, 4, 4, 3]),
        row([2, 2, 1, 1], [4, 4, 4, 3, 3]),
        row(TABLE.normal, [2, 3, 3, 4, 4]),
        row([3, 3, 4, 4], TABLE.giant),
    ];
    for more in [-1, 1] {
        for layer in 0..4 {
            let mut table = TABLE;
            table.normal[layer] += more;
            all.push(table);
        }
        for layer in 0..5 {
            let mut table = TABLE;
            table.giant[layer] += more;
            all.push(table);
        }
    }
    all
}

#[test]
fn the_original_has_these_radii() {
    let mut report = Report::default();
    let met = compare(&mut report, &|_, s| rust_ground(s).0, &SMALL);
    assert_eq!(report.differences, 0);
    let missed: Vec<String> = kinds().into_iter().filter(|k| !met.contains_key(k)).collect();
    assert!(missed.is_empty(), "not met: {missed:?}");
}

#[test]
fn every_other_table_is_found() {
    assert_eq!(by(&TABLE), 0);
    let all = slips();
    for (i, table) in all.iter().enumerate() {
        assert!(by(table) > 0, "{table:?} was not found");
        assert!(!all[..i].contains(table), "{table:?} stands there twice");
    }
    assert_eq!(all.len(), 22);
}

#[test]
fn a_trunk_of_another_height_is_found() {
    let mut report = Report::quiet();
    let shorter = |_: &mut Report, s: &Site| {
        let (mut cells, n) = (rust_ground(s).0, s.chunk_size);
        for i in 0..cells.len() - n {
            if cells[i] == LOG && cells[i + n] != LOG {
                cells[i] = AIR;
            }
        }
        relaid(s, &cells, &TABLE, &mut Met::default()).0
    };
    compare(&mut report, &shorter, &SMALL);
    assert!(report.differences > 0);
}

/// A place whose column (8, 8) is a giant's, or is none.
fn place(giant: bool) -> (Site, i32) {
    for cx in 0.. {
        let s = Site {
            seed: 0,
            sea_level: 24,
            world_height_blocks: 256,
            chunk_size: 32,
            cx,
            cy: 0,
            cz: 0,
        };
        let (wx, wz) = (cx * 32 + 8, 8);
        let v = hash2(wx + 42, wz + 99);
        if giant && v < 0.08 && biome_at(&s, wx, wz) == Biome::Forest {
            return (s, 8 + (v * 40.0) as i32);
        }
        if !giant && v >= 0.08 {
            return (s, 4 + (v * 3.0) as i32);
        }
    }
    unreachable!()
}

/// The leaves of each level of one tree in air: whole numbers (dx, dz) of squared length up to r², of which there are 5, 13,
/// 29 and 49 for r from 1 to 4, and at most the rim's 4, 8, 8 and 8 beside them. The lowest layer is around the topmost log.
#[test]
fn layers_have_their_cells() {
    let (least, rim) = ([0, 5, 13, 29, 49], [0, 4, 8, 8, 8]);
    for (giant, radii) in [(false, vec![1, 1, 2, 2]), (true, vec![3, 3, 4, 4, 4])] {
        let (s, trunk) = place(giant);
        let mut cells = vec![AIR; 32 * 32 * 32];
        for y in 2..2 + trunk as usize {
            cells[8 + 32 * (y + 32 * 8)] = LOG;
        }
        let (again, whole) = relaid(&s, &cells, &TABLE, &mut Met::default());
        assert!(whole);
        for y in 0..32 {
            let level = (0..32).flat_map(|z| (0..32).map(move |x| (x, z)));
            let found = level
                .filter(|(x, z)| again[x + 32 * (y + 32 * z)] == LEAVES)
                .count();
            let layer = y as i32 - (1 + trunk);
            match radii.get(layer as usize) {
                Some(&r) => {
                    let less = usize::from(layer == 0);
                    assert!((least[r] - less..=least[r] + rim[r] - less).contains(&found));
                }
                None => assert_eq!(found, 0),
            }
        }
    }
}
