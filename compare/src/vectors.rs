//! The lists that program crates replay in the gate, where no Rust is at hand. A crate's `stdin`
//! has the inputs, its `stdout` the answers, and both come from here: from the original, and for
//! refusals and tallies from bare.rs. Nothing of the product is in them.
use crate::bare;
use crate::crowns;
use crate::ground::Site;
use crate::ground::{height_at, in_biome, reach, rust_ground};
use crate::meets::Met;
use crate::noise::{any_float, bits_of};
use crate::report::Report;
use crate::rng::Rng;
use crate::seeds;
use crate::seen::Seen;
use original::chunk::{Chunk, Face};
use original::noise as rust;
use original::terrain::Biome;
use std::fs;
use std::path::PathBuf;

/// A crate that replays a list: its name, its input and what the original answers to it.
pub struct List {
    name: &'static str,
    stdin: String,
    stdout: String,
}

/// A program reads so many bytes of its input at most.
const READ: usize = 65_536;

/// Chunks up to this size are printed whole.
const WHOLE: usize = 5;

/// World heights that cut a biome's columns off where its top changes: mountains at 40, 41, 55, 56,
/// 70 and 71 with sea level 24, the others around 62, which is sea + 2 with sea level 60.
const MARKS: [(Biome, i32); 12] = [
    (Biome::Mountain, 41),
    (Biome::Mountain, 42),
    (Biome::Mountain, 56),
    (Biome::Mountain, 57),
    (Biome::Mountain, 71),
    (Biome::Mountain, 72),
    (Biome::Plains, 62),
    (Biome::Plains, 63),
    (Biome::Plains, 64),
    (Biome::Forest, 63),
    (Biome::Forest, 64),
    (Biome::Desert, 64),
];

/// The checksum of a list of cells: each is added to 16777619 times what came before, modulo
/// 2^32.
fn checksum(cells: &[u16]) -> u32 {
    cells.iter().fold(0, |sum: u32, &id| {
        sum.wrapping_mul(16_777_619).wrapping_add(id as u32)
    })
}

/// The answer of the original to one chunk: count, checksum, and the cells of a small one.
fn ground_line(s: &Site) -> String {
    let (cells, count) = rust_ground(s);
    let mut line = format!("{count} {}", checksum(&cells));
    if s.chunk_size <= WHOLE {
        for id in cells {
            line.push_str(&format!(" {id}"));
        }
    }
    line.push('\n');
    line
}

/// The place along y that has the surface at a chunk's middle column.
fn at_surface(s: Site) -> Site {
    let n = s.chunk_size as i32;
    let height = height_at(&s, s.cx * n + n / 2, s.cz * n + n / 2);
    Site {
        cy: (height - 1).div_euclid(n),
        ..s
    }
}

/// The chunks of the list: every size to 16 at the surface and below it, both limits, water,
/// beaches, the columns where x minus its floor is 1.0, each biome, and a few large ones.
fn sites() -> Vec<Site> {
    let mut rng = Rng::new(5);
    let usual = Site {
        seed: 0,
        sea_level: 24,
        world_height_blocks: 256,
        chunk_size: 16,
        cx: 0,
        cy: 0,
        cz: 0,
    };
    let mut all = vec![];
    for chunk_size in 1..=16 {
        let (least, most) = reach(chunk_size);
        let s = Site { chunk_size, ..usual };
        let any = Site {
            seed: 65_535,
            cx: rng.range(-300, 300) as i32,
            cz: rng.range(-300, 300) as i32,
            ..s
        };
        all.push(at_surface(Site {
            cx: least,
            cz: most,
            ..s
        }));
        all.push(at_surface(Site {
            cx: most,
            cz: least,
            seed: 1,
            ..s
        }));
        all.push(at_surface(any));
        all.push(Site {
            cy: at_surface(any).cy - 1,
            ..any
        });
        all.push(at_surface(Site {
            sea_level: 100,
            world_height_blocks: 64,
            ..any
        }));
        all.push(at_surface(Site {
            sea_level: 60,
            world_height_blocks: 62,
            ..any
        }));
        all.push(Site {
            cx: least,
            cy: least,
            cz: least,
            ..s
        });
        all.push(Site {
            cx: most,
            cy: most,
            cz: most,
            ..s
        });
        all.push(at_surface(Site {
            cx: (-30i32).div_euclid(chunk_size as i32),
            cz: 14_146 / chunk_size as i32,
            ..s
        }));
        all.push(at_surface(Site {
            cx: (-20i32).div_euclid(chunk_size as i32),
            cz: 42_603 / chunk_size as i32,
            ..s
        }));
    }
    for (biome, world_height_blocks) in MARKS {
        let sea_level = if biome == Biome::Mountain { 24 } else { 60 };
        let s = Site {
            sea_level,
            world_height_blocks,
            chunk_size: 6,
            ..usual
        };
        all.push(at_surface(in_biome(&mut rng, s, biome)));
    }
    for (sea_level, world_height_blocks) in [
        (-4096, 2),
        (4096, 4096),
        (-4096, 4096),
        (4096, 2),
        (0, 3),
        (-1, 256),
    ] {
        let s = Site {
            sea_level,
            world_height_blocks,
            chunk_size: 8,
            ..usual
        };
        all.extend([at_surface(s), s, Site { cy: 256 / 8, ..s }]);
    }
    for biome in [Biome::Desert, Biome::Mountain, Biome::Forest, Biome::Plains] {
        for _ in 0..15 {
            let chunk_size = rng.pick(&[16, 20, 24]);
            let sea_level = rng.pick(&[24, 24, -10]);
            let s = Site {
                seed: rng.pick(&[0, 1, 4242]),
                sea_level,
                chunk_size,
                ..usual
            };
            all.push(at_surface(in_biome(&mut rng, s, biome)));
        }
    }
    for chunk_size in [32, 48, 64] {
        all.push(at_surface(Site {
            chunk_size,
            cx: -2,
            cz: 1,
            ..usual
        }));
    }
    all.extend(borders(&mut rng, usual));
    all.extend(wide_seeds(&mut rng, usual));
    all
}

/// Seeds above those of before: small chunks at two corners of the reach, and larger ones anywhere.
fn wide_seeds(rng: &mut Rng, usual: Site) -> Vec<Site> {
    let mut all = vec![];
    for seed in seeds::NAMED {
        for chunk_size in [1, 3, 5, 16] {
            let (least, most) = reach(chunk_size);
            for (cx, cz) in [(least, most), (most, least)] {
                all.push(at_surface(Site {
                    seed,
                    chunk_size,
                    cx,
                    cz,
                    ..usual
                }));
            }
        }
        let (least, most) = reach(24);
        all.push(at_surface(Site {
            seed,
            chunk_size: 24,
            cx: rng.range(least.into(), most.into()) as i32,
            cz: rng.range(least.into(), most.into()) as i32,
            ..usual
        }));
    }
    all
}

/// Chunks on both sides of the two places from which on one block fills a chunk: the highest cell
/// at -8 and -7 under a desert of height 1; the lowest cell 5 and 4 above the greatest height, with
/// the sea below, at and above it, and 3 above it, where a boulder of 4 ends.
fn borders(rng: &mut Rng, usual: Site) -> Vec<Site> {
    let mut all = vec![];
    let desert = Site {
        world_height_blocks: 2,
        chunk_size: 1,
        ..usual
    };
    let desert = in_biome(rng, desert, Biome::Desert);
    for (chunk_size, cy) in [(1, -8), (1, -7), (7, -2), (6, -2), (3, -3), (2, -4)] {
        let n = chunk_size as i32;
        all.push(Site {
            chunk_size,
            cx: desert.cx.div_euclid(n),
            cy,
            cz: desert.cz.div_euclid(n),
            ..desert
        });
    }
    let above = Site {
        chunk_size: 16,
        cy: 3,
        ..usual
    };
    for (sea_level, world_height_blocks) in [(24, 44), (48, 44), (49, 44), (24, 45)] {
        let s = Site {
            sea_level,
            world_height_blocks,
            ..above
        };
        all.push(in_biome(rng, s, Biome::Mountain));
    }
    let peaks = Site {
        world_height_blocks: 46,
        ..above
    };
    let mut s = in_biome(rng, peaks, Biome::Mountain);
    while rust_ground(&s).1 == 0 {
        s = in_biome(rng, peaks, Biome::Mountain);
    }
    all.push(s);
    all
}

fn ground(report: &mut Report) -> List {
    let (mut stdin, mut stdout, mut seen) = (String::new(), String::new(), Seen::default());
    let mut met = Met::default();
    for s in sites() {
        stdin.push_str(&format!(
            "{} {} {} {} {} {} {}\n",
            s.seed, s.sea_level, s.world_height_blocks, s.chunk_size, s.cx, s.cy, s.cz
        ));
        stdout.push_str(&ground_line(&s));
        let cells = rust_ground(&s).0;
        seen.note(&s, &cells);
        seen.sizes += 1;
        crowns::relaid(&s, &cells, &crowns::TABLE, &mut met);
    }
    seen.close(report);
    crowns::close(report, &met);
    List {
        name: "test_ground",
        stdin,
        stdout,
    }
}

/// The original's six answers to one line of the noise list.
fn noise_line(whole: [i32; 3], [x, y, z]: [f32; 3], octaves: u32) -> String {
    let answers = [
        rust::hash2(whole[0], whole[1]),
        rust::hash3(whole[0], whole[1], whole[2]),
        rust::noise2d(x, y),
        rust::noise3d(x, y, z),
        rust::fbm2d(x, y, octaves),
        rust::fbm3d(x, y, z, octaves),
    ];
    let bits: Vec<String> = answers.iter().map(|&v| bits_of(v).to_string()).collect();
    bits.join(" ") + "\n"
}

fn noise() -> List {
    let mut rng = Rng::new(6);
    let (mut stdin, mut stdout) = (String::new(), String::new());
    for n in 0..600u32 {
        let whole: [i32; 3] = std::array::from_fn(|_| crate::noise::any_whole(&mut rng));
        let real: [f32; 3] = std::array::from_fn(|_| number(&mut rng));
        let octaves = n % 9;
        let bits = real.map(f32::to_bits);
        stdin.push_str(&format!(
            "{} {} {} {} {} {} {octaves}\n",
            whole[0], whole[1], whole[2], bits[0], bits[1], bits[2]
        ));
        stdout.push_str(&noise_line(whole, real, octaves));
    }
    List {
        name: "test_noise",
        stdin,
        stdout,
    }
}

/// A float of any kind but NaN, whose bits the program cannot take.
fn number(rng: &mut Rng) -> f32 {
    let v = any_float(rng);
    if v.is_nan() {
        f32::NEG_INFINITY
    } else {
        v
    }
}

/// One call on cells for the list: a kind with an id, a size, how many cells are lent, a count, and
/// three arguments.
#[derive(Clone, Copy)]
struct Asked {
    kind: u32,
    id: u16,
    size: u32,
    lent: u32,
    count: u32,
    args: [u32; 3],
}

/// The cells that a call is lent hold 0, 1, 2, 3, 4 in turn; the first one of a tally holds the call's id.
fn lent_cells(q: &Asked) -> Vec<u16> {
    let mut cells: Vec<u16> = (0..q.lent).map(|i| (i % 5) as u16).collect();
    if let (10, Some(first)) = (q.kind, cells.first_mut()) {
        *first = q.id;
    }
    cells
}

/// A call in order.
fn usual_call(kind: u32, size: u32) -> Asked {
    let lent = size * size * size;
    let args = match kind {
        5 => [lent, 0, 0],
        9 => [0, size * size, 0],
        10 => [5, 5, 0],
        _ => [0, size - 1, size - 1],
    };
    Asked {
        kind,
        id: 7,
        size,
        lent,
        count: lent - lent.div_ceil(5),
        args,
    }
}

/// The calls of the list: each kind at and around each of its limits, one thing at a time.
fn asked_calls() -> Vec<Asked> {
    let mut all = vec![];
    for kind in 1..=10 {
        for size in [1, 2, 3, 5, 63, 64] {
            let q = usual_call(kind, size);
            all.push(q);
            all.push(Asked { id: 0, ..q });
            all.extend([0, size + 1, 65, u32::MAX].map(|size| Asked { size, ..q }));
            all.extend([q.lent - 1, 0].map(|lent| Asked { lent, ..q }));
            all.extend([0, 1, q.lent, q.lent - 1, q.lent + 1, u32::MAX].map(|count| Asked { count, ..q }));
            for i in 0..3 {
                let changed = |a: u32| {
                    let mut args = q.args;
                    args[i] = a;
                    Asked { args, ..q }
                };
                all.extend([0, 1, 5, size - 1, size, size + 1, 4096].map(changed));
                // A face has a number to 5, a list of the tally at most 16 places, a slice its room.
                if !matches!(kind, 5 | 9 | 10) {
                    all.push(changed(u32::MAX));
                }
            }
        }
    }
    all.retain(|q| match q.kind {
        9 => q.args[0] <= 5,
        10 => q.args.iter().all(|&a| a <= 16),
        _ => true,
    });
    all.extend(tallies());
    all
}

/// Tallies of chunks with no id, with one and with some, whose first cell holds air, an id that is there already, or one
/// above all others: in lists that just fit, that have one place more, all 16, or one too few.
fn tallies() -> Vec<Asked> {
    let mut all = vec![];
    for size in [1, 2, 5] {
        for id in [0, 1, 4, 5, 7, 8191, 8192, 57_344, 65_535] {
            let q = Asked {
                id,
                ..usual_call(10, size)
            };
            let n = bare::present(&lent_cells(&q)).len() as u32;
            let mut places = vec![[n, n], [n + 1, n], [n, n + 1], [n + 1, n + 1], [16, 16]];
            if n > 0 {
                places.extend([[n - 1, n], [n, n - 1]]);
            }
            all.extend(places.iter().map(|&[a, b]| Asked { args: [a, b, 0], ..q }));
        }
    }
    all
}

/// What a call answers and how it leaves what was lent to be written: bare.rs, held to the original
/// where that takes the call.
fn cells_line(report: &mut Report, q: &Asked) -> String {
    let mut cells = lent_cells(q);
    let before = cells.clone();
    let size = q.size as usize;
    let at = q.args.map(|a| a as usize);
    let reply = match q.kind {
        1 => bare::get(&cells, size, at),
        2 => bare::is_air(&cells, size, at),
        3 => bare::is_empty(&cells, size),
        4 => bare::is_solid(&cells, size),
        5 => bare::replace_blocks(&mut cells, size, &vec![0; at[0]]),
        6 => bare::set(&mut cells, size, q.count, at, q.id),
        7 => bare::fill_column(&mut cells, size, q.count, at, q.id),
        8 => return batch_line(report, q, cells),
        9 => return border_line(&cells, size, at),
        _ => return tally_line(&cells, size, at),
    };
    if reply.number == 0 {
        let same = original_agrees(q, &before, &cells, reply.value);
        report.same(same, || {
            format!("call {} on size {size}: the model is not the original", q.kind)
        });
    }
    format!("{} {} {}\n", reply.number, reply.value, checksum(&cells))
}

/// Whether the original gives these cells and this value for an accepted call. A count that is not
/// that of the cells has no counterpart: there the cells alone are compared.
fn original_agrees(q: &Asked, before: &[u16], after: &[u16], value: u32) -> bool {
    let mut chunk = Chunk::new(q.size as usize).expect("an accepted size is within its limit");
    chunk
        .replace_blocks(before)
        .expect("accepted cells are size cubed");
    let [x, y, z] = q.args.map(|a| a as usize);
    let counts = chunk.non_air_blocks() == q.count;
    let said = match q.kind {
        1 => Some(chunk.get(x, y, z) as u32),
        2 => Some(chunk.is_air(x, y, z) as u32),
        3 => Some(chunk.is_empty() as u32),
        4 => Some(chunk.is_solid() as u32),
        5 => chunk
            .replace_blocks(&vec![0; x])
            .is_ok()
            .then(|| chunk.non_air_blocks()),
        6 => {
            chunk.set(x, y, z, q.id);
            counts.then(|| chunk.non_air_blocks())
        }
        _ => {
            chunk.fill_column(x, y, z, q.id);
            counts.then(|| chunk.non_air_blocks())
        }
    };
    chunk.blocks() == after && said.is_none_or(|v| v == value)
}

/// A batch of two groups, at the arguments and at the arguments backward, and two numbers left over;
/// the call's number stands for the id.
fn batch_line(report: &mut Report, q: &Asked, mut cells: Vec<u16>) -> String {
    let [a, b, c] = q.args;
    let id = q.kind * 65_536 + q.id as u32;
    let edits = [a, b, c, id, c, b, a, id, a, b];
    let before = cells.clone();
    let reply = bare::set_blocks(&mut cells, q.size as usize, q.count, &edits);
    if reply.number != 0 {
        return format!("{} 0 {}\n", reply.number, checksum(&cells));
    }
    let mut chunk = Chunk::new(q.size as usize).expect("an accepted size is within its limit");
    chunk
        .replace_blocks(&before)
        .expect("accepted cells are size cubed");
    let counts = chunk.non_air_blocks() == q.count;
    let written = chunk.set_blocks(&edits) as usize;
    let count_agrees = !counts || chunk.non_air_blocks() == reply.count;
    report.same(
        chunk.blocks() == cells && written == reply.written && count_agrees,
        || format!("a batch on size {}: the model is not the original", q.size),
    );
    format!("0 {} {} {}\n", reply.written, reply.count, checksum(&cells))
}

fn border_line(cells: &[u16], size: usize, [face, places, _]: [usize; 3]) -> String {
    let number = bare::border_refusal(cells, size, places);
    if number != 0 {
        return format!("{number} 0 {}\n", checksum(&vec![0; places]));
    }
    let mut chunk = Chunk::new(size).expect("an accepted size is within its limit");
    chunk
        .replace_blocks(cells)
        .expect("accepted cells are size cubed");
    format!("0 0 {}\n", checksum(&chunk.extract_border(Face::ALL[face])))
}

/// The number, how many ids, and every place of both lists, which hold 9 before the call.
fn tally_line(cells: &[u16], size: usize, [a, b, _]: [usize; 3]) -> String {
    let (mut ids, mut counts) = (vec![9; a], vec![9; b]);
    let reply = bare::tally(cells, size, &mut ids, &mut counts);
    let mut line = format!("{} {}", reply.number, reply.value);
    let places = ids.iter().map(|&id| id.into()).chain(counts);
    places.for_each(|place: u32| line.push_str(&format!(" {place}")));
    line.push('\n');
    line
}

fn cells(report: &mut Report) -> List {
    let (mut stdin, mut stdout) = (String::new(), String::new());
    for q in asked_calls() {
        let [a, b, c] = q.args;
        let call = q.kind * 65_536 + q.id as u32;
        stdin.push_str(&format!("{call} {} {} {} {a} {b} {c}\n", q.size, q.lent, q.count));
        stdout.push_str(&cells_line(report, &q));
    }
    List {
        name: "test_chunk",
        stdin,
        stdout,
    }
}

fn file(list: &List, name: &str) -> PathBuf {
    PathBuf::from("crates").join(list.name).join(name)
}

fn lists(report: &mut Report) -> Vec<List> {
    let all = vec![noise(), ground(report), cells(report)];
    for list in all.iter().filter(|list| list.stdin.len() > READ) {
        report.fail(format!("{} cannot read its whole list", list.name));
    }
    all
}

/// Writes the lists beside the programs that replay them. Run from the repository's root.
pub fn write(report: &mut Report) {
    for list in lists(report) {
        fs::write(file(&list, "stdin"), &list.stdin).expect("the crate's folder can be written");
        fs::write(file(&list, "stdout"), &list.stdout).expect("the crate's folder can be written");
        println!("vectors: {} lines for {}", list.stdin.lines().count(), list.name);
    }
}

/// Holds the stored lists to what the original answers today.
pub fn check(report: &mut Report) {
    for list in lists(report) {
        for (name, text) in [("stdin", &list.stdin), ("stdout", &list.stdout)] {
            let path = file(&list, name);
            match fs::read_to_string(&path) {
                Ok(stored) => report.same(&stored == text, || {
                    format!("{} is not what the original gives", path.display())
                }),
                Err(e) => report.fail(format!("{} cannot be read: {e}", path.display())),
            }
        }
    }
}
