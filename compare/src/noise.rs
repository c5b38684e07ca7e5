//! The noise, bit for bit: hash2, hash3, noise2d, noise3d, fbm2d, fbm3d.
use crate::product;
use crate::report::Report;
use crate::rng::Rng;
use crate::seeds;
use original::noise as rust;

/// f32 values where a port goes wrong: zeros, subnormals, ends, whole numbers and their
/// neighbours, the powers of two where fractions and i32 end, infinities and NaN.
const SPECIAL: [f32; 46] = [
    0.0,
    -0.0,
    f32::from_bits(1),
    f32::from_bits(0x8000_0001),
    f32::from_bits(0x007f_ffff),
    f32::from_bits(0x807f_ffff),
    f32::MIN_POSITIVE,
    -f32::MIN_POSITIVE,
    f32::EPSILON,
    -f32::EPSILON,
    0.5,
    -0.5,
    f32::from_bits(0x3eff_ffff),
    f32::from_bits(0x3f7f_ffff),
    f32::from_bits(0xbf7f_ffff),
    1.0,
    -1.0,
    f32::from_bits(0x3f80_0001),
    f32::from_bits(0xbf80_0001),
    1.5,
    -1.5,
    -2.0,
    7.0,
    100.25,
    -200.75,
    4194303.5,
    -4194303.5,
    8388607.5,
    -8388607.5,
    8388608.0,
    -8388608.0,
    8388609.0,
    -8388609.0,
    16777216.0,
    -16777216.0,
    2147483520.0,
    -2147483520.0,
    2147483648.0,
    -2147483648.0,
    -2147483904.0,
    4294967296.0,
    f32::MAX,
    f32::MIN,
    f32::INFINITY,
    f32::NEG_INFINITY,
    f32::NAN,
];

/// i32 values at the ends and around powers of two.
const WHOLE: [i32; 17] = [
    0,
    1,
    -1,
    2,
    -2,
    13,
    65_535,
    65_536,
    -65_536,
    1_000_000,
    -1_000_000,
    16_777_217,
    i32::MAX,
    i32::MAX - 1,
    i32::MIN,
    i32::MIN + 1,
    -2_048_144_777,
];

/// Equal bits; a NaN is equal to any NaN, as Rust does not fix its payload.
pub fn alike(a: f32, b: f32) -> bool {
    a.to_bits() == b.to_bits() || (a.is_nan() && b.is_nan())
}

/// The bits of a float, those of one NaN for all.
pub fn bits_of(v: f32) -> u32 {
    if v.is_nan() {
        0x7fc0_0000
    } else {
        v.to_bits()
    }
}

/// A number of one of these kinds: special, any bits, of middle size, whole, near whole, huge,
/// tiny, or what a world coordinate becomes in terrain.rs.
pub fn any_float(rng: &mut Rng) -> f32 {
    match rng.below(8) {
        0 => rng.pick(&SPECIAL),
        1 => f32::from_bits(rng.draw() as u32),
        2 => (rng.range(-8_000_000, 8_000_000) as f32) / 4096.0,
        3 => rng.range(-5000, 5000) as f32,
        4 => near_whole(rng),
        5 => (rng.range(-(1 << 40), 1 << 40) as f32) * rng.pick(&[0.001, 1.0, 64.0]),
        6 => (rng.range(-1_000_000, 1_000_000) as f32) * 1e-30,
        _ => world(rng),
    }
}

pub fn any_whole(rng: &mut Rng) -> i32 {
    match rng.below(3) {
        0 => rng.pick(&WHOLE),
        1 => rng.range(-2000, 2000) as i32,
        _ => rng.draw() as i32,
    }
}

/// A whole number, or one a few steps of the last bit away from it.
fn near_whole(rng: &mut Rng) -> f32 {
    let whole = rng.range(-70_000, 70_000) as f32;
    f32::from_bits(whole.to_bits().wrapping_add(rng.range(-3, 3) as u32))
}

/// A world coordinate, scaled and moved as the terrain does it.
fn world(rng: &mut Rng) -> f32 {
    let seed = seeds::any(rng) as f32 * 1000.0;
    let at = rng.range(-1_000_000, 1_000_000) as f32 + seed;
    let scale = rng.pick(&[
        0.003f32, 0.004, 0.006, 0.008, 0.01, 0.015, 0.02, 0.025, 0.04, 0.05, 0.06, 0.08,
    ]);
    at * scale + rng.pick(&[0.0f32, 50.0, 100.0, -200.0, 300.0, -400.0, 500.0, 900.0])
}

/// One comparison of two f32 answers to the same arguments.
fn float(report: &mut Report, name: &str, args: &[f32], more: u32, rust: f32, ours: f32) {
    report.same(alike(rust, ours), || {
        let bits: Vec<String> = args
            .iter()
            .map(|a| format!("{a:e} ({:#010x})", a.to_bits()))
            .collect();
        format!(
            "{name}({}; {more}): Rust {rust:e} ({:#010x}), product {ours:e} ({:#010x})",
            bits.join(", "),
            rust.to_bits(),
            ours.to_bits()
        )
    });
}

pub fn hash2(report: &mut Report, x: i32, y: i32) {
    let (a, b) = (rust::hash2(x, y), product::hash2(x, y));
    report.same(alike(a, b), || {
        format!("hash2({x}, {y}): Rust {a:e}, product {b:e}")
    });
}

pub fn hash3(report: &mut Report, x: i32, y: i32, z: i32) {
    let (a, b) = (rust::hash3(x, y, z), product::hash3(x, y, z));
    report.same(alike(a, b), || {
        format!("hash3({x}, {y}, {z}): Rust {a:e}, product {b:e}")
    });
}

fn noise2d(report: &mut Report, x: f32, y: f32) {
    float(
        report,
        "noise2d",
        &[x, y],
        0,
        rust::noise2d(x, y),
        product::noise2d(x, y),
    );
}

fn noise3d(report: &mut Report, x: f32, y: f32, z: f32) {
    float(
        report,
        "noise3d",
        &[x, y, z],
        0,
        rust::noise3d(x, y, z),
        product::noise3d(x, y, z),
    );
}

fn fbm2d(report: &mut Report, x: f32, y: f32, octaves: u32) {
    float(
        report,
        "fbm2d",
        &[x, y],
        octaves,
        rust::fbm2d(x, y, octaves),
        product::fbm2d(x, y, octaves),
    );
}

fn fbm3d(report: &mut Report, x: f32, y: f32, z: f32, octaves: u32) {
    float(
        report,
        "fbm3d",
        &[x, y, z],
        octaves,
        rust::fbm3d(x, y, z, octaves),
        product::fbm3d(x, y, z, octaves),
    );
}

fn hashes(report: &mut Report, rng: &mut Rng) {
    for x in WHOLE {
        for y in WHOLE {
            hash2(report, x, y);
            for z in WHOLE {
                hash3(report, x, y, z);
            }
        }
    }
    for x in -300..300 {
        for y in -300..300 {
            hash2(report, x, y);
        }
    }
    for _ in 0..300_000 {
        hash2(report, any_whole(rng), any_whole(rng));
        hash3(report, any_whole(rng), any_whole(rng), any_whole(rng));
    }
}

/// Every pair and triple of special values, through noise and sums of three octaves.
fn specials(report: &mut Report) {
    for x in SPECIAL {
        for y in SPECIAL {
            noise2d(report, x, y);
            for octaves in 0..=8 {
                fbm2d(report, x, y, octaves);
            }
            for z in SPECIAL {
                noise3d(report, x, y, z);
                fbm3d(report, x, y, z, 3);
            }
        }
    }
}

fn random(report: &mut Report, rng: &mut Rng) {
    for _ in 0..300_000 {
        noise2d(report, any_float(rng), any_float(rng));
        noise3d(report, any_float(rng), any_float(rng), any_float(rng));
    }
    for octaves in 0..=8 {
        for _ in 0..40_000 {
            fbm2d(report, any_float(rng), any_float(rng), octaves);
            fbm3d(report, any_float(rng), any_float(rng), any_float(rng), octaves);
        }
    }
}

/// More octaves than the terrain takes, to where the frequency overflows to infinity.
fn many_octaves(report: &mut Report, rng: &mut Rng) {
    for octaves in (9..=160).chain([1000]) {
        for _ in 0..40 {
            fbm2d(report, any_float(rng), any_float(rng), octaves);
            fbm3d(report, any_float(rng), any_float(rng), any_float(rng), octaves);
        }
    }
}

/// World columns, with every sum that terrain.rs takes there. At (-30, 14146) and (-20, 42603),
/// x minus its floor is exactly 1.0.
fn columns(report: &mut Report, rng: &mut Rng) {
    let mut at = vec![(-30, 14146), (-20, 42603)];
    at.extend((0..20_000).map(|_| (rng.range(-1_000_000, 1_000_000), rng.range(-1_000_000, 1_000_000))));
    for (wx, wz) in at {
        let (x, z) = (wx as f32, wz as f32);
        fbm2d(report, x * 0.003 + 100.0, z * 0.003 + 100.0, 4);
        fbm2d(report, x * 0.004 - 200.0, z * 0.004 + 300.0, 4);
        fbm2d(report, x * 0.006 - 400.0, z * 0.006 + 600.0, 3);
        fbm2d(report, x * 0.025, z * 0.025, 4);
        fbm2d(report, x * 0.08, z * 0.08, 2);
        fbm3d(report, x * 0.04 + 100.0, 30.0 * 0.06 + 100.0, z * 0.04 + 100.0, 3);
    }
}

pub fn run(report: &mut Report) {
    let before = report.comparisons;
    let mut rng = Rng::new(1);
    hashes(report, &mut rng);
    specials(report);
    random(report, &mut rng);
    many_octaves(report, &mut rng);
    columns(report, &mut rng);
    println!("noise: {} comparisons", report.comparisons - before);
}
