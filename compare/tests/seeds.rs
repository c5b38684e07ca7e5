//! The driver of seeds above 65,535 on the original's ground and on the model, and on libraries with a slip each: it must
//! find every one of them. The lengths of first lines, and which columns share their values, are worked out by hand.
use compare::ground::{biome_at, height_at, rust_ground, Laid, Site};
use compare::library::{Fresh, Library, Open, MODEL};
use compare::model::{self, Lent, Refusal, Reopened};
use compare::report::Report;
use compare::seeds::{chunks, maps, Amount, LONGEST, MOST, OLDER};
use compare::seen::Seen;

const SMALL: Amount = Amount {
    small: 3,
    large: 0,
    maps: 8,
};

/// The differences that the driver finds where the original lays the ground of this seed, or a refusal answers.
fn by(seed: &dyn Fn(u32) -> Result<u32, u32>) -> u64 {
    let mut report = Report::quiet();
    let ground = |s: &Site, cells: &mut [u16]| match seed(s.seed) {
        Ok(seed) => {
            let (ours, count) = rust_ground(&Site { seed, ..*s });
            cells.copy_from_slice(&ours);
            Laid::Count(count)
        }
        Err(number) => Laid::Refused(number),
    };
    chunks(&mut report, &ground, &SMALL, &mut Seen::default());
    report.differences
}

#[test]
fn the_original_itself() {
    assert_eq!(by(&Ok), 0);
}

#[test]
fn every_other_seed_is_found() {
    let most = |most: u32| move |seed: u32| if seed > most { Err(2) } else { Ok(seed) };
    assert!(by(&most(OLDER)) > 0, "the limit of before");
    assert!(by(&most(MOST - 1)) > 0, "the limit one less");
    assert!(by(&|seed| Ok(seed % 65_536)) > 0, "16 bits");
    assert!(by(&|seed| Ok(seed % (1 << 23))) > 0, "23 bits");
    assert!(by(&|seed| Ok(seed.min(OLDER))) > 0, "no more than before");
    assert!(by(&|seed| Ok(seed / 8 * 8)) > 0, "multiples of 8");
}

/// The differences that the driver finds in maps of a library that begins and opens them so.
fn in_maps(fresh: Fresh, open: Open) -> u64 {
    let mut report = Report::quiet();
    let library = Library { fresh, open, ..MODEL };
    maps(&mut report, &library, SMALL.maps);
    report.differences
}

/// Begins maps with seeds to this one.
fn begins(most: u32) -> impl Fn(&Site, &[u16], &[u8]) -> Result<Lent, u32> {
    move |site, cells, journal| {
        let seed = site.seed.min(MOST);
        match site.seed > most {
            true => Err(2),
            false => model::fresh(&Site { seed, ..*site }, cells, journal),
        }
    }
}

/// Writes the seed modulo a number.
fn writes(n: u32) -> impl Fn(&Site, &[u16], &[u8]) -> Result<Lent, u32> {
    move |site, cells, journal| {
        let mut lent = model::fresh(site, cells, journal)?;
        let seed = site.seed % n;
        let line = model::header(&Site { seed, ..*site }) + "\n";
        lent.journal[..line.len()].copy_from_slice(line.as_bytes());
        Ok(lent)
    }
}

/// Opens maps with seeds to this one.
fn opens(most: u32) -> impl Fn(&[u8], usize, usize) -> Result<Reopened, Refusal> {
    move |journal, held, cells| {
        let opened = model::reopen(journal, held, cells)?;
        match opened.record.site.seed > most {
            true => Err(model::refusal(2)),
            false => Ok(opened),
        }
    }
}

/// Reads the seed modulo a number.
fn reads(n: u32) -> impl Fn(&[u8], usize, usize) -> Result<Reopened, Refusal> {
    move |journal, held, cells| {
        let mut opened = model::reopen(journal, held, cells)?;
        opened.record.site.seed %= n;
        Ok(opened)
    }
}

#[test]
fn every_slip_of_a_map_is_found() {
    assert_eq!(in_maps(MODEL.fresh, MODEL.open), 0);
    // Nor have the makers of slips a difference, where they are given none.
    assert_eq!(in_maps(&begins(MOST), &opens(MOST)), 0);
    assert_eq!(in_maps(&writes(u32::MAX), &reads(u32::MAX)), 0);
    let full: Fresh = &|site, cells, journal| match journal.len() {
        51 => Err(24),
        _ => model::fresh(site, cells, journal),
    };
    let fresh: [(&str, Fresh); 6] = [
        ("begins with the seeds of before", &begins(OLDER)),
        ("begins with one seed less", &begins(MOST - 1)),
        ("begins with one seed more", &begins(MOST + 1)),
        ("writes 16 bits", &writes(65_536)),
        ("writes seven digits", &writes(MOST)),
        ("has no space for 51 bytes in 51", full),
    ];
    let open: [(&str, Open); 4] = [
        ("opens the seeds of before", &opens(OLDER)),
        ("opens one seed less", &opens(MOST - 1)),
        ("reads 16 bits", &reads(65_536)),
        ("reads seven digits", &reads(MOST)),
    ];
    for (name, fresh) in fresh {
        assert!(in_maps(fresh, MODEL.open) > 0, "{name}: not found");
    }
    for (name, open) in open {
        assert!(in_maps(MODEL.fresh, open) > 0, "{name}: not found");
    }
}

#[test]
fn the_longest_first_line() {
    let line = "G\t10000000\t-4096\t4096\t1\t-1000000\t-1000000\t-1000000";
    assert_eq!((model::header(&LONGEST), line.len() + 1), (line.into(), 51));
    let limits = |seed| model::limits(&[seed, 24, 256, 16, 0, 0, 0]);
    assert_eq!(
        [-1, 0, 65_535, 65_536, 10_000_000, 10_000_001].map(limits),
        [2, 0, 0, 0, 0, 2]
    );
}

/// The table of README: the last seed of each range, and how many neighbours share their values there on average.
const SHARED: [(u32, f64); 11] = [
    (16_777, 1.0),
    (33_554, 2.0),
    (67_108, 4.0),
    (134_217, 8.0),
    (268_435, 16.0),
    (536_870, 32.0),
    (1_073_741, 64.0),
    (2_147_483, 128.0),
    (4_294_967, 256.0),
    (8_589_934, 512.0),
    (MOST, 1024.0),
];

/// What a column's x becomes.
fn value(seed: u32, x: i32) -> f32 {
    x as f32 + seed as f32 * 1000.0
}

/// A number with a comma before its last three digits, as README writes it.
fn with_commas(n: u32) -> String {
    match n / 1000 {
        0 => n.to_string(),
        front => format!("{},{:03}", with_commas(front), n % 1000),
    }
}

#[test]
fn readme_has_this_table() {
    let path = format!("{}/../README.md", env!("CARGO_MANIFEST_DIR"));
    let text = std::fs::read_to_string(path).expect("the repository has the file");
    for (last, shared) in SHARED {
        let row = format!("\n| {} | {} |\n", with_commas(last), with_commas(shared as u32));
        assert!(text.contains(&row), "README has no row {row:?}");
    }
}

/// A range ends where seed times 1,000 passes a power of two, from 2^24 on. In its middle the values from one x to another
/// that is 8,000 times the average away are 8,000, and one or two more or less at the ends.
#[test]
fn the_table_is_right() {
    let mut first = 0;
    for (k, (last, shared)) in (24..).zip(SHARED) {
        let power = (1u64 << k) / 1000;
        assert!(
            u64::from(last) == power || (last == MOST && power > MOST.into()),
            "{last}"
        );
        let (middle, reach) = (first + (last - first) / 2, 4000 * shared as i32);
        let all: Vec<f32> = (-reach..=reach).map(|x| value(middle, x)).collect();
        let many = 1 + all.windows(2).filter(|pair| pair[0] != pair[1]).count();
        assert!(many.abs_diff(8000) <= 2, "{middle}: {many}");
        first = last + 1;
    }
}

/// Above 2^33 two neighbours among the f32 numbers are 1,024 apart. The sum of x and 10,000,000,000 is a tie at x = 512 and
/// at 1,536, and goes up and down there; so all x between have one value, and one height and biome in the original.
#[test]
fn columns_share_their_values() {
    const AT: Site = Site {
        world_height_blocks: 256,
        sea_level: 24,
        ..LONGEST
    };
    let column = |x: i32| (value(MOST, x), height_at(&AT, x, 0), biome_at(&AT, x, 0));
    assert!(value(MOST, 511) < value(MOST, 512) && value(MOST, 1_536) < value(MOST, 1_537));
    for x in (512..=1_536).step_by(64) {
        assert_eq!(column(x), column(1_024), "{x}");
    }
}
