//! Seeds above 65,535 (SCOPE 2.1, 2.4): phone extensions and dates. The ground of such seeds against the original, cell by
//! cell; their maps, cut and reopened, against the model; and how near a column's coordinates come to the end of an i32.
use crate::ground::{self, chunk_of, reach, surface, Generate, Site};
use crate::idle::note;
use crate::journals;
use crate::meets::Met;
use crate::model::Reference;
use crate::product::{self, Product};
use crate::report::Report;
use crate::rng::Rng;
use crate::seen::Seen;
use crate::session::{self, cuts, held, started, Calls};
use original::block::LEAVES;

/// The greatest seed, and the greatest of before.
pub const MOST: u32 = 10_000_000;
pub const OLDER: u32 = 65_535;

/// The first seed above the older ones, the first whose product with 1,000 an f32 rounds, one of seven digits, the last two.
pub const NAMED: [u32; 5] = [65_536, 134_219, 1_234_567, 9_999_999, MOST];

/// A seed that was answered before.
fn older(rng: &mut Rng) -> u32 {
    let any = rng.range(0, OLDER.into()) as u32;
    rng.pick(&[0, 1, 7, 4242, OLDER, any])
}

/// A seed above those: a named one, a phone extension, a date as day, month and two digits of the year, or any.
pub fn wide(rng: &mut Rng) -> u32 {
    match rng.below(4) {
        0 => rng.pick(&NAMED),
        1 => rng.range(i64::from(OLDER) + 1, 999_999) as u32,
        2 => (rng.range(7, 31) * 10_000 + rng.range(1, 12) * 100 + rng.range(0, 99)) as u32,
        _ => rng.range(i64::from(OLDER) + 1, MOST.into()) as u32,
    }
}

/// A seed within the limits, in half of the cases one of before.
pub fn any(rng: &mut Rng) -> u32 {
    if rng.once_in(2) {
        older(rng)
    } else {
        wide(rng)
    }
}

/// How much a run does.
pub struct Amount {
    /// Random chunks of each size up to 16, and of each larger one.
    pub small: u64,
    pub large: u64,
    /// Maps that are cut at every byte.
    pub maps: u64,
}

pub const FULL: Amount = Amount {
    small: 600,
    large: 6,
    maps: 60,
};

/// The chunks of one size. Of each named seed both corners of the reach; of each, or of one for the larger sizes, the
/// surface at the two other corners; and random ones.
fn sites(rng: &mut Rng, chunk_size: usize, amount: &Amount) -> Vec<Site> {
    let (least, most) = reach(chunk_size);
    let small = chunk_size <= 16;
    let mut all = vec![];
    for (k, seed) in NAMED.into_iter().enumerate() {
        let at = |cx, cy, cz| Site {
            seed,
            sea_level: 24,
            world_height_blocks: 256,
            chunk_size,
            cx,
            cy,
            cz,
        };
        all.extend([at(least, least, least), at(most, most, most)]);
        if small || chunk_size % NAMED.len() == k {
            all.extend([at(least, 0, most), at(most, 0, least)].map(|s| Site { cy: surface(&s), ..s }));
        }
    }
    for _ in 0..if small { amount.small } else { amount.large } {
        let settings = Site {
            seed: wide(rng),
            ..ground::settings(rng, chunk_size)
        };
        all.push(ground::placed(rng, settings));
    }
    all
}

/// Chunks of every size with such seeds. Answers how many chunks of which kind were met.
pub fn chunks(report: &mut Report, generate: Generate, amount: &Amount, seen: &mut Seen) -> Met {
    let (mut rng, mut met) = (Rng::new(9), Met::default());
    for size in 1..=64 {
        let (least, most) = reach(size);
        for (n, s) in sites(&mut rng, size, amount).iter().enumerate() {
            let cells = chunk_of(report, s, generate);
            if size <= 16 && n % 4 == 0 {
                seen.note(s, &cells);
            }
            let at = [s.cx, s.cy, s.cz];
            let kinds = [
                ("a chunk".to_string(), s.seed > OLDER),
                (format!("the seed {}", s.seed), NAMED.contains(&s.seed)),
                ("the least place".into(), at == [least; 3]),
                ("the greatest place".into(), at == [most; 3]),
                ("a chunk with leaves".into(), cells.contains(&LEAVES)),
            ];
            let kinds = kinds.into_iter().filter(|(_, meets)| *meets);
            kinds.for_each(|(kind, _)| note(&mut met, kind));
        }
        seen.sizes += 1;
    }
    met
}

/// The longest first line, with its LF: of 51 bytes.
pub const LONGEST: Site = Site {
    seed: MOST,
    sea_level: -4096,
    world_height_blocks: 4096,
    chunk_size: 1,
    cx: -1_000_000,
    cy: -1_000_000,
    cz: -1_000_000,
};

/// Maps with such seeds: fresh in journals around the first line's length, and cut at every byte after some calls.
pub fn maps(report: &mut Report, calls: &impl Calls, many: u64) {
    let mut rng = Rng::new(10);
    for length in 49..=53 {
        started(report, calls, &LONGEST, 1, length);
    }
    for seed in [MOST, MOST + 1, MOST + 2, 20_261_117, u32::MAX] {
        started(report, calls, &Site { seed, ..LONGEST }, 1, 60);
    }
    let mut reopened = 0;
    for n in 0..many {
        let site = match n {
            0 => LONGEST,
            1..=5 => Site {
                seed: NAMED[n as usize - 1],
                ..journals::site(&mut rng)
            },
            _ => Site {
                seed: wide(&mut rng),
                ..journals::site(&mut rng)
            },
        };
        let any = |rng: &mut Rng, _: &_| journals::call(rng, site.chunk_size);
        let length = 2000;
        let Some(lent) = started(report, calls, &site, site.chunk_size.pow(3), length) else {
            report.fail(format!("{site:?} begins no map"));
            continue;
        };
        let reference = Reference::new(site, length);
        let states = held(report, &mut rng, calls, (lent, reference), 12, any);
        cuts(report, &mut rng, calls, &states, &mut session::six);
        reopened += states.last().map_or(0, |last| last.record.used + 1);
    }
    println!("seeds: {many} maps, reopened at {reopened} cuts");
}

/// A noise of a column: what is added to x or z, the factor, what is added to the product, each as it is at most, and the
/// frequency of the last octave.
struct Noise {
    moved: f32,
    factor: f32,
    added: f32,
    last: f32,
}

const fn noise(factor: f32, added: f32, last: f32) -> Noise {
    Noise {
        moved: 0.0,
        factor,
        added,
        last,
    }
}

/// SCOPE 4.2, 4.4. Temperature and the two of the warp are one here; the warp moves the continent by 40.
const NOISES: [Noise; 10] = [
    noise(0.003, 900.0, 8.0),
    noise(0.004, 300.0, 8.0),
    Noise {
        moved: 40.0,
        ..noise(0.004, 0.0, 16.0)
    },
    noise(0.025, 0.0, 8.0),
    noise(0.08, 0.0, 2.0),
    noise(0.008, 500.0, 8.0),
    noise(0.015, 300.0, 4.0),
    noise(0.006, 600.0, 4.0),
    noise(0.02, 50.0, 4.0),
    noise(0.01, 250.0, 4.0),
];

/// The greatest coordinate that a noise gets from a column at this x or z.
pub fn greatest(seed: u32, at: i32) -> f32 {
    let x = at as f32 + seed as f32 * 1000.0;
    let all = NOISES
        .iter()
        .map(|n| ((x + n.moved) * n.factor + n.added) * n.last);
    all.fold(f32::MIN, f32::max)
}

/// Whether the original's sum of a coordinate's whole part and 1 stays within an i32.
pub fn fits(seed: u32, at: i32) -> bool {
    greatest(seed, at) < 2_147_483_648.0
}

/// The coordinates of every seed at the greatest x, and of the greatest seed at every x.
fn coordinates(report: &mut Report) {
    let seeds = (0..=MOST).filter(|&seed| !fits(seed, 1_000_000)).count();
    let places = (-1_000_000..=1_000_000).filter(|&at| !fits(MOST, at)).count();
    report.same(seeds == 0 && places == 0, || {
        format!("{seeds} seeds and {places} places have a coordinate beyond an i32")
    });
    println!(
        "seeds: the greatest coordinate is {}",
        greatest(MOST, 1_000_000) as i64
    );
}

/// Fails for what a run is to meet and did not.
pub fn close(report: &mut Report, met: &Met) {
    let mut all: Vec<(String, u64)> = NAMED.map(|seed| (format!("the seed {seed}"), 64)).into();
    all.push(("the least place".into(), 64));
    all.push(("the greatest place".into(), 64));
    all.push(("a chunk".into(), 10_000));
    for (kind, least) in all {
        let n = met.get(&kind).copied().unwrap_or(0);
        if n < least {
            report.fail(format!("of {kind} with a seed above 65,535: {n}, not {least}"));
        }
    }
}

pub fn run(report: &mut Report) {
    let (before, mut seen) = (report.comparisons, Seen::default());
    let met = chunks(report, &product::generate, &FULL, &mut seen);
    seen.close(report);
    close(report, &met);
    let text: Vec<String> = met.iter().map(|(kind, n)| format!("{kind} {n}")).collect();
    println!("seeds: met {}", text.join(", "));
    maps(report, &Product, FULL.maps);
    coordinates(report);
    println!("seeds: {} comparisons", report.comparisons - before);
}
