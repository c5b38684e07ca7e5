//! Times the product, the original at the baseline of x86-64 and the original built for this processor, in turns.
//!   bench table LIBRARY      the times and their ratios; LIBRARY is the original built for this processor
//!   bench markdown LIBRARY   only ratios, of instructions too, and the stack: the tables of docs/SPEED.md
//!   bench instructions       how many instructions each side takes, counted by valgrind
//!   bench count N SIDE       runs one side of a workload once, for valgrind
//! A session and a chunk's planes have no original: other sides stand in its place.
use compare::ground::{height_at, Laid, Site};
use compare::model::{Call, Lent, JOURNAL};
use compare::native::{self, Native};
use compare::plain_planes::Buffers;
use compare::product::{self, Product};
use compare::report::Report;
use compare::rng::Rng;
use compare::session::Calls;
use compare::{plain_planes, stack, system};
use original::plain;
use std::cell::RefCell;
use std::hint::black_box;
use std::process::{Command, ExitCode};
use std::rc::Rc;

/// How often each side of a workload is timed; the median counts.
const ROUNDS: usize = 9;

/// A workload: a name, and one run for each side, which makes a call so many times. Each answers a
/// number that is kept, so that no compiler drops the work. The third side is the original built for this processor; of
/// planes, a straight copy.
struct Workload<'a> {
    name: String,
    times: usize,
    product: Box<dyn Fn() -> f64 + 'a>,
    baseline: Box<dyn Fn() -> f64 + 'a>,
    third: Option<Box<dyn Fn() -> f64 + 'a>>,
}

/// The processor time of a run in microseconds.
fn timed(run: &dyn Fn() -> f64) -> f64 {
    let start = system::thread_time();
    black_box(run());
    (system::thread_time() - start) * 1e6
}

fn median(mut times: Vec<f64>) -> f64 {
    times.sort_by(f64::total_cmp);
    times[times.len() / 2]
}

/// What the sides of a workload took: microseconds, or instructions.
struct Taken {
    product: f64,
    baseline: f64,
    third: Option<f64>,
}

/// Times the sides in turns.
fn measure(w: &Workload) -> Taken {
    let (mut ours, mut base, mut third) = (vec![], vec![], vec![]);
    for _ in 0..ROUNDS {
        ours.push(timed(&w.product));
        base.push(timed(&w.baseline));
        if let Some(run) = &w.third {
            third.push(timed(run));
        }
    }
    Taken {
        product: median(ours),
        baseline: median(base),
        third: (!third.is_empty()).then(|| median(third)),
    }
}

/// The exclusive or of what f answers over the inputs. A sum of floats would have to be saved around each call, since no
/// vector register is the caller's, and that takes longer than a hash.
fn gather<T: Copy>(inputs: &[T], f: impl Fn(T) -> f32) -> f64 {
    inputs.iter().fold(0u32, |bits, &i| bits ^ f(i).to_bits()) as f64
}

/// World coordinates as the terrain scales them.
fn points(n: usize) -> Vec<(f32, f32, f32)> {
    let mut rng = Rng::new(3);
    let mut one = || rng.range(-40_000_000, 40_000_000) as f32 / 4096.0;
    (0..n).map(|_| (one(), one(), one())).collect()
}

fn wholes(n: usize) -> Vec<(i32, i32, i32)> {
    let mut rng = Rng::new(4);
    (0..n)
        .map(|_| (rng.draw() as i32, rng.draw() as i32, rng.draw() as i32))
        .collect()
}

fn hashes<'a>(at: &'a [(i32, i32, i32)], near: Option<&'a Native>) -> Vec<Workload<'a>> {
    vec![
        Workload {
            name: "hash2".into(),
            times: at.len(),
            product: Box::new(|| gather(at, |(x, y, _)| product::hash2(x, y))),
            baseline: Box::new(|| gather(at, |(x, y, _)| plain::hash2(x, y))),
            third: near
                .map(|n| Box::new(move || gather(at, |(x, y, _)| (n.hash2)(x, y))) as Box<dyn Fn() -> f64>),
        },
        Workload {
            name: "hash3".into(),
            times: at.len(),
            product: Box::new(|| gather(at, |(x, y, z)| product::hash3(x, y, z))),
            baseline: Box::new(|| gather(at, |(x, y, z)| plain::hash3(x, y, z))),
            third: near.map(|n| {
                Box::new(move || gather(at, |(x, y, z)| (n.hash3)(x, y, z))) as Box<dyn Fn() -> f64>
            }),
        },
    ]
}

fn noises<'a>(at: &'a [(f32, f32, f32)], near: Option<&'a Native>) -> Vec<Workload<'a>> {
    vec![
        Workload {
            name: "noise2d".into(),
            times: at.len(),
            product: Box::new(|| gather(at, |(x, y, _)| product::noise2d(x, y))),
            baseline: Box::new(|| gather(at, |(x, y, _)| plain::noise2d(x, y))),
            third: near
                .map(|n| Box::new(move || gather(at, |(x, y, _)| (n.noise2d)(x, y))) as Box<dyn Fn() -> f64>),
        },
        Workload {
            name: "noise3d".into(),
            times: at.len(),
            product: Box::new(|| gather(at, |(x, y, z)| product::noise3d(x, y, z))),
            baseline: Box::new(|| gather(at, |(x, y, z)| plain::noise3d(x, y, z))),
            third: near.map(|n| {
                Box::new(move || gather(at, |(x, y, z)| (n.noise3d)(x, y, z))) as Box<dyn Fn() -> f64>
            }),
        },
        Workload {
            name: "fbm2d of 4 octaves".into(),
            times: at.len(),
            product: Box::new(|| gather(at, |(x, y, _)| product::fbm2d(x, y, 4))),
            baseline: Box::new(|| gather(at, |(x, y, _)| plain::fbm2d(x, y, 4))),
            third: near.map(|n| {
                Box::new(move || gather(at, |(x, y, _)| (n.fbm2d)(x, y, 4))) as Box<dyn Fn() -> f64>
            }),
        },
        Workload {
            name: "fbm3d of 3 octaves".into(),
            times: at.len(),
            product: Box::new(|| gather(at, |(x, y, z)| product::fbm3d(x, y, z, 3))),
            baseline: Box::new(|| gather(at, |(x, y, z)| plain::fbm3d(x, y, z, 3))),
            third: near.map(|n| {
                Box::new(move || gather(at, |(x, y, z)| (n.fbm3d)(x, y, z, 3))) as Box<dyn Fn() -> f64>
            }),
        },
    ]
}

/// A chunk laid `times` times by each side. The product writes into one lent buffer; the
/// original makes its chunk anew, as its interface asks.
fn ground<'a>(name: &str, s: Site, times: usize, near: Option<&'a Native>) -> Workload<'a> {
    let repeat = move |f: &dyn Fn() -> usize| (0..times).map(|_| f() as f64).sum();
    let cells = RefCell::new(vec![0u16; s.chunk_size.pow(3)]);
    let rust = move |f: extern "C" fn(u32, i32, i32, usize, i32, i32, i32) -> u32| {
        f(
            s.seed,
            s.sea_level,
            s.world_height_blocks,
            s.chunk_size,
            s.cx,
            s.cy,
            s.cz,
        ) as usize
    };
    Workload {
        name: format!("{name}, size {}", s.chunk_size),
        times,
        product: Box::new(move || {
            repeat(&|| match product::generate(&s, &mut cells.borrow_mut()) {
                Laid::Count(n) => n as usize,
                Laid::Refused(_) => unreachable!("a benchmark's chunk is within the limits"),
            })
        }),
        baseline: Box::new(move || repeat(&|| rust(plain::generate))),
        third: near.map(|n| Box::new(move || repeat(&|| rust(n.generate))) as Box<dyn Fn() -> f64>),
    }
}

/// The places of a size: below the surface, at it, in the sky inside the world, far above and
/// far below.
fn grounds(near: Option<&Native>) -> Vec<Workload<'_>> {
    let mut all = vec![];
    for (size, times) in [(16, 16), (32, 4), (64, 1)] {
        // A sea level of 90 leaves a whole chunk of any size between the bottom and the surface.
        let s = Site {
            seed: 7,
            sea_level: 90,
            world_height_blocks: 256,
            chunk_size: size,
            cx: 3,
            cy: 0,
            cz: -5,
        };
        let n = size as i32;
        let top = (height_at(&s, s.cx * n + n / 2, s.cz * n + n / 2) - 1) / n;
        let at = |cy| Site { cy, ..s };
        all.push(ground(
            "underground",
            at(if size == 64 { 0 } else { 1 }),
            times,
            near,
        ));
        all.push(ground("at the surface", at(top), times, near));
        all.push(ground("sky inside the world", at(255 / n), times, near));
        // One call is over in some microseconds: by itself it tells whether the lent buffer was still
        // in the cache, so there are sixteen of any size.
        all.push(ground("far above", at(4096 / n + 3), 16, near));
        all.push(ground("far below", at(-4096 / n), 16, near));
    }
    all
}

/// What both sides do.
fn workloads<'a>(
    whole: &'a [(i32, i32, i32)],
    real: &'a [(f32, f32, f32)],
    near: Option<&'a Native>,
) -> Vec<Workload<'a>> {
    let mut all = hashes(whole, near);
    all.extend(noises(real, near));
    all.extend(grounds(near));
    all
}

/// The k-th call of a row.
type Press = Box<dyn Fn(usize) -> f64>;

/// Two calls in turns, each from the same record. After one of them the other alters so many cells.
fn in_turns(start: &Lent, calls: [Call; 2], altered: usize) -> Press {
    let lent = RefCell::new(start.clone());
    let press = move |k: usize| {
        let mut lent = lent.borrow_mut();
        let before = lent.record;
        let reply = Product.call(&mut lent, &calls[k % 2]);
        assert_eq!(reply.number, 0, "a call with room for its line");
        lent.record = before;
        reply.altered as f64
    };
    let told = [0, 1, 2, 3].map(&press);
    assert_eq!(told[1..], [altered as f64; 3], "what each call alters");
    Box::new(press)
}

/// Set, column and batch in turns with another id, so that each alters every cell that it names: with one id alone the
/// second press would find its own cells. The ids of a pair have equally many digits.
fn edits(start: &Lent) -> [Press; 3] {
    let column = |id| Call::Column {
        x: 3,
        z: 5,
        height: 64,
        id,
    };
    let mut others = stack::groups();
    let ids = others.iter_mut().skip(3).step_by(4);
    ids.for_each(|id| *id = if *id < 10 { *id % 9 + 1 } else { *id + 10 });
    let batches = [Call::Batch(stack::groups()), Call::Batch(others)];
    let sets = [4, 5].map(|id| Call::Set([1, 2, 3], id));
    [
        in_turns(start, sets, 1),
        in_turns(start, [column(4), column(5)], 64),
        in_turns(start, batches, 16),
    ]
}

/// Calls of a session at its limits, at size 64: the Rust has none, so the other side is one
/// generation of the chunk by the product. A call is made again and again from the same record.
fn presses<'a>() -> Vec<Workload<'a>> {
    let site = stack::site();
    let start = stack::long_session(&Product, site);
    let row = |name: &str, times: usize, press: Press| Workload {
        name: name.into(),
        times,
        product: Box::new(move || (0..times).map(&press).sum()),
        baseline: Box::new(move || one_generation(site)),
        third: None,
    };
    let [set, column, batch] = edits(&start);
    // Pressed again, a set or a batch finds its cells there, and alters nothing.
    let idle = |call: Call| in_turns(&start, [call.clone(), call], 0);
    // An undo lays the same map each time, and from the second on finds it there.
    let undo = |start: &Lent| in_turns(start, [Call::Undo, Call::Undo], 0);
    let batches = stack::batches_session(&Product, site);
    // The last name is moved, and restored to the edits that are active: the line fills the journal.
    let marks = stack::marks_session(&Product, site);
    let again = |call: Call| in_turns(&marks, [call.clone(), call], 0);
    vec![
        row("session set", 1000, set),
        row("session column of 64", 1000, column),
        row("session batch of 16", 1000, batch),
        row("session set onto itself", 1000, idle(Call::Set([1, 2, 3], 4))),
        row(
            "session batch onto itself",
            1000,
            idle(Call::Batch(stack::groups())),
        ),
        row("undo, 255 active sets", 1, undo(&start)),
        row("undo, 255 active batches", 1, undo(&batches)),
        row(
            "reopening of 32 KiB",
            1,
            reopening(start.journal, start.record.used),
        ),
        row("undo behind M and R lines", 1, undo(&marks)),
        row(
            "checkpoint behind M and R lines",
            1,
            again(Call::Checkpoint(stack::last_name())),
        ),
        row(
            "restore behind M and R lines",
            1,
            again(Call::Restore(stack::last_name())),
        ),
        row(
            "reopening of M and R lines",
            1,
            reopening(stack::marks_journal(&site, JOURNAL), JOURNAL),
        ),
    ]
}

/// A journal of size 64 that is reopened.
fn reopening(journal: Vec<u8>, used: usize) -> Press {
    let cells = RefCell::new(vec![0; 64 * 64 * 64]);
    Box::new(move |_| {
        let answer = Product.reopen(&journal, used, &mut cells.borrow_mut());
        answer.expect("a journal as it was written").1 as f64
    })
}

/// One generation of a chunk by the product.
fn one_generation(site: Site) -> f64 {
    let mut cells = vec![0; site.chunk_size.pow(3)];
    match product::generate(&site, &mut cells) {
        Laid::Count(n) => n as f64,
        Laid::Refused(_) => unreachable!("a benchmark's chunk is within the limits"),
    }
}

/// One side of a row of planes.
type Side = fn(&mut [u16], usize, &mut [u8]);

/// The product, plain Rust with a loop over the bits, and a straight copy from the cells to the bytes.
const TO: [Side; 3] = [
    |cells, size, bytes| assert_eq!(product::to_planes(cells, size, bytes).number, 0),
    |cells, size, bytes| plain_planes::to_planes(cells, size, bytes),
    |cells, _, bytes| plain_planes::copy_to(cells, bytes),
];

/// The same the other way.
const FROM: [Side; 3] = [
    |cells, size, bytes| assert_eq!(product::from_planes(bytes, size, cells).number, 0),
    |cells, size, bytes| plain_planes::from_planes(bytes, size, cells),
    |cells, _, bytes| plain_planes::copy_from(bytes, cells),
];

/// How many calls a round has at sizes 16, 32 and 64: the copy takes a millisecond or more. Instructions are counted of
/// one call.
const CALLS: [usize; 3] = [15_000, 1000, 120];
const ONE: [usize; 3] = [1; 3];

/// A row of planes. Its three sides have the same buffers, which are in the cache as far as they fit.
fn planes_row<'a>(name: &str, size: usize, times: usize, sides: [Side; 3]) -> Workload<'a> {
    let start = Buffers::new(size);
    let [ours, plain] = [sides[0], sides[1]].map(|side| {
        let mut buffers = start.clone();
        let (cells, bytes) = buffers.lent();
        side(cells, size, bytes);
        buffers
    });
    assert!(ours == plain && ours != start, "the same planes by both");
    let shared = Rc::new(RefCell::new(start));
    let [product, baseline, copy] = sides.map(|side| {
        let shared = Rc::clone(&shared);
        Box::new(move || {
            let mut buffers = shared.borrow_mut();
            let (cells, bytes) = buffers.lent();
            (0..times).for_each(|_| side(black_box(cells), size, black_box(bytes)));
            f64::from(cells[0]) + f64::from(bytes[0])
        }) as Box<dyn Fn() -> f64>
    });
    Workload {
        name: format!("{name}, size {size}"),
        times,
        product,
        baseline,
        third: Some(copy),
    }
}

/// How many rows of planes there are.
const ROWS_OF_PLANES: usize = 6;

/// Both calls on planes at three sizes.
fn planes<'a>(times: [usize; 3]) -> Vec<Workload<'a>> {
    let sizes = [16, 32, 64].into_iter().zip(times);
    sizes
        .flat_map(|(size, times)| {
            [("to_planes", TO), ("from_planes", FROM)]
                .map(|(name, sides)| planes_row(name, size, times, sides))
        })
        .collect()
}

/// The work whose instructions are counted: valgrind collects inside this function alone.
#[inline(never)]
fn counted_work(run: &dyn Fn() -> f64) -> f64 {
    black_box(run())
}

/// The row of this number: first come those of both sides, then planes, then sessions. Rows of another kind are not made:
/// what they were lent and gave back would alter how later buffers are lent.
fn row<'a, 'b>(all: &'a mut Vec<Workload<'b>>, number: usize) -> Option<&'a Workload<'b>> {
    let place = match number.checked_sub(all.len()) {
        None => number,
        Some(k) if k < ROWS_OF_PLANES => {
            all.extend(planes(ONE));
            number
        }
        Some(_) => {
            all.extend(presses());
            number - ROWS_OF_PLANES
        }
    };
    all.get(place)
}

/// The instructions that a run of a workload's side takes; its number is that of `row`.
fn instructions(number: usize, side: &str) -> Option<f64> {
    let output = Command::new("valgrind")
        .args(["--tool=callgrind", "--callgrind-out-file=/dev/null"])
        .arg("--toggle-collect=*counted_work*")
        .arg(std::env::current_exe().ok()?)
        .args(["count", &number.to_string(), side])
        .output()
        .ok()?;
    let text = String::from_utf8_lossy(&output.stderr).into_owned();
    let count = text.split("Collected : ").nth(1)?;
    count.split_whitespace().next()?.parse().ok()
}

/// The instructions of the first two sides. The third is built for this processor, or the C library's copy: valgrind may
/// run another one.
fn counted(number: usize) -> Option<Taken> {
    Some(Taken {
        product: instructions(number, "product")?,
        baseline: instructions(number, "baseline")?,
        third: None,
    })
}

const SESSIONS: &str =
    "Calls of a session with 255 active edits and a journal of 32 KiB, at size 64 and the surface; behind
M and R lines these are 256 edits, 16 names, and lines of the last name in turns. The other side is one
generation of that chunk by the product itself.";

const PLANES: &str =
    "Planes. Rust: plain Rust with a loop over the bits of each cell, for the x86-64 baseline; copy: a straight
copy of as many bytes between the same buffers.";

/// A line of a table for the screen.
fn line(w: &Workload, t: &Taken) -> String {
    let third = t.third.map_or("-".to_string(), |third| {
        format!("{third:11.1} {:8.2}", third / t.product)
    });
    let name = format!("{}, x{}", w.name, w.times);
    let (product, baseline) = (t.product, t.baseline);
    let (up, down) = (product / baseline, baseline / product);
    format!("{name:36} {product:13.1} {baseline:13.1} {up:8.2} {down:8.2} {third}")
}

/// A line of the table of planes for the screen.
fn planes_line(w: &Workload, t: &Taken) -> String {
    let name = format!("{}, x{}", w.name, w.times);
    let (product, plain, copy) = (t.product, t.baseline, t.third.unwrap_or(f64::NAN));
    let (copies, down) = (product / copy, plain / product);
    format!("{name:36} {product:13.1} {plain:13.1} {copy:13.1} {copies:9.2} {down:8.2}")
}

/// Prints the times of planes.
fn planes_table() {
    println!("{PLANES}");
    println!(
        "{:36} {:>13} {:>13} {:>13} {:>9} {:>8}",
        "call", "product", "Rust", "copy", "prod/copy", "R/prod"
    );
    planes(CALLS)
        .iter()
        .for_each(|w| println!("{}", planes_line(w, &measure(w))));
}

/// Prints the times of all workloads.
fn table(all: &[Workload]) {
    println!("Medians of {ROUNDS} rounds in turns, microseconds of processor time. Rust: the original at opt-level 3");
    println!(
        "for the x86-64 baseline; native: the original built for this processor. /: one time over the other."
    );
    println!(
        "{:36} {:>13} {:>13} {:>8} {:>8} {:>11} {:>8}",
        "workload", "product", "Rust", "prod/R", "R/prod", "native", "nat/prod"
    );
    all.iter().for_each(|w| println!("{}", line(w, &measure(w))));
    println!("{SESSIONS}");
    presses()
        .iter()
        .for_each(|w| println!("{}", line(w, &measure(w))));
    planes_table();
}

/// Prints the instructions of all workloads.
fn instruction_table(all: &[Workload]) -> Option<()> {
    println!("Instructions, counted by valgrind. Rust: the original at opt-level 3 for the x86-64 baseline.");
    println!(
        "{:36} {:>13} {:>13} {:>8} {:>8}",
        "workload", "product", "Rust", "prod/R", "R/prod"
    );
    for (number, w) in all.iter().enumerate() {
        println!("{}", line(w, &counted(number)?));
    }
    println!("{SESSIONS}");
    for (number, w) in (all.len() + ROWS_OF_PLANES..).zip(&presses()) {
        println!("{}", line(w, &counted(number)?));
    }
    println!("{PLANES}");
    for (number, w) in (all.len()..).zip(&planes(ONE)) {
        println!("{}", line(w, &counted(number)?));
    }
    Some(())
}

/// A ratio in three digits.
fn three(ratio: f64) -> String {
    let digits = 2 - ratio.log10().floor() as i32;
    let unit = 10f64.powi(digits);
    let decimals = digits.clamp(0, 2) as usize;
    format!("{:.decimals$}", (ratio * unit).round() / unit)
}

/// Prints the table of planes, of which the first has this number.
fn planes_markdown(first: usize, rows: &[Workload], times: &[Taken]) -> Option<()> {
    println!();
    println!(
        "| planes | product / straight copy | plain Rust / product | instructions, plain Rust / product |"
    );
    println!("|---|---|---|---|");
    for ((number, w), t) in (first..).zip(rows).zip(times) {
        let (copies, count) = (three(t.product / t.third?), counted(number)?);
        let [time, fewer] = [t, &count].map(|t| three(t.baseline / t.product));
        println!("| {} | {copies} | {time} | {fewer} |", w.name);
    }
    Some(())
}

/// Prints the table of what the calls take of the stack.
fn stack_markdown() {
    println!();
    println!("| call at size 64 | bytes of stack |");
    println!("|---|---|");
    for (name, bytes) in stack::measure(&mut Report::quiet()) {
        if bytes > system::NEAR {
            println!("| {name} | {bytes} |");
        }
    }
    println!("| every other call that is measured | at most {} |", system::NEAR);
}

/// Prints the tables of docs/SPEED.md: no time, only ratios of what was measured in this run. All times are taken
/// before valgrind first runs.
fn markdown(all: &[Workload]) -> Option<()> {
    let presses = presses();
    let times: Vec<Taken> = all.iter().chain(&presses).map(measure).collect();
    let planes = planes(CALLS);
    let times_of_planes: Vec<Taken> = planes.iter().map(measure).collect();
    println!("| workload | Rust / product | native Rust / product | instructions, Rust / product |");
    println!("|---|---|---|---|");
    for (number, w) in all.iter().enumerate() {
        let (t, count) = (&times[number], counted(number)?);
        let baseline = three(t.baseline / t.product);
        let native = t.third.map_or("-".into(), |native| three(native / t.product));
        let fewer = three(count.baseline / count.product);
        println!("| {} | {baseline} | {native} | {fewer} |", w.name);
    }
    println!();
    println!("| call of a session | calls in the time of one generation | in the instructions of one |");
    println!("|---|---|---|");
    for (k, w) in presses.iter().enumerate() {
        let (t, count) = (&times[all.len() + k], counted(all.len() + planes.len() + k)?);
        let [time, fewer] = [t, &count].map(|t| three(w.times as f64 * t.baseline / t.product));
        println!("| {} | {time} | {fewer} |", w.name);
    }
    planes_markdown(all.len(), &planes, &times_of_planes)?;
    stack_markdown();
    Some(())
}

fn main() -> ExitCode {
    let words: Vec<String> = std::env::args().skip(1).collect();
    let words: Vec<&str> = words.iter().map(String::as_str).collect();
    let (whole, real) = (wholes(20_000), points(5_000));
    let loaded = match words[..] {
        ["table" | "markdown", path] => native::load(path),
        _ => None,
    };
    let mut all = workloads(&whole, &real, loaded.as_ref());
    let done = match words[..] {
        ["table", _] => {
            table(&all);
            Some(())
        }
        ["markdown", _] => markdown(&all),
        ["instructions"] => instruction_table(&all),
        ["count", number, side] => number.parse().ok().and_then(|number| {
            let w = row(&mut all, number)?;
            black_box(counted_work(if side == "product" {
                &w.product
            } else {
                &w.baseline
            }));
            Some(())
        }),
        _ => None,
    };
    match done {
        Some(()) => ExitCode::SUCCESS,
        None => {
            eprintln!("bench: valgrind counts nothing, or these are no words of bench: {words:?}");
            ExitCode::from(2)
        }
    }
}
