//! The calls on lent cells against the original's `Chunk`, after each call of random lists: cells,
//! count and answer. Calls that the original does not take (bad sizes, wrong counts, cells outside, tallies)
//! are held to bare.rs alone, which has the refusals.
use crate::bare::{self, Reply};
use crate::product;
use crate::report::Report;
use crate::rng::Rng;
use crate::tally;
use original::chunk::Chunk;

/// How many calls a run makes.
const CALLS: u64 = 1_200_000;

/// How many calls are made on one chunk.
const LIST: u64 = 60;

/// What lent buffers hold before a call, so that a place left as it came is seen.
pub const STALE: u16 = 0xabcd;

/// Random cells: mostly a few small ids, some of any number.
pub fn random_cells(rng: &mut Rng, size: usize) -> Vec<u16> {
    let air = rng.below(5);
    (0..size * size * size)
        .map(|_| if rng.below(4) < air { 0 } else { id(rng) })
        .collect()
}

/// An id: air, a block's, or any.
pub fn id(rng: &mut Rng) -> u16 {
    match rng.below(6) {
        0 => 0,
        1 => rng.draw() as u16,
        2 => rng.pick(&[255, 256, 65_535, 65_534]),
        _ => rng.below(10) as u16,
    }
}

/// A coordinate: mostly inside, else at and past the edge, or at an end of its type.
pub fn coordinate(rng: &mut Rng, size: usize) -> usize {
    match rng.below(12) {
        0 => size,
        1 => rng.pick(&[size + 1, 64, 65, 1 << 32, usize::MAX, usize::MAX - 1]),
        _ => rng.below(size as u64) as usize,
    }
}

/// A batch: groups inside and outside, on few cells so that they meet again, ids above 65,535, and
/// up to three numbers left over.
pub fn batch(rng: &mut Rng, size: usize, groups: u64) -> Vec<u32> {
    let n = rng.below(groups + 1) * 4 + rng.below(4);
    (0..n)
        .map(|i| match (i % 4, rng.below(10)) {
            (3, 0..=3) => rng.draw() as u32,
            (3, 4) => rng.pick(&[65_536, 65_537, 131_072, u32::MAX]),
            (3, _) => rng.below(4) as u32,
            (_, 0) => rng.pick(&[size as u32, size as u32 + 1, u32::MAX, 1 << 16, 64]),
            _ => rng.below(size as u64) as u32,
        })
        .collect()
}

/// A chunk on both sides: the original's, and the cells and count lent to the product.
struct Both {
    size: usize,
    rust: Chunk,
    cells: Vec<u16>,
    count: u32,
}

impl Both {
    fn new(rng: &mut Rng) -> Self {
        let size = rng.pick(&[1, 1, 2, 2, 3, 3, 4, 5, 6, 7, 8, 16]);
        let cells = random_cells(rng, size);
        let mut rust = Chunk::new(size).expect("the size is within its limit");
        rust.replace_blocks(&cells).expect("the cells are size cubed");
        let count = rust.non_air_blocks();
        Both {
            size,
            rust,
            cells,
            count,
        }
    }

    /// Whether the model's cells and count are the original's after a call that both took.
    fn agree(&self, report: &mut Report, name: &str) {
        let (size, count) = (self.size, self.count);
        let same = self.rust.blocks() == self.cells && self.rust.non_air_blocks() == count;
        report.same(same, || {
            format!("{name}, size {size}: cells or count differ from the original's")
        });
    }

    fn at(&self, rng: &mut Rng) -> [usize; 3] {
        std::array::from_fn(|_| coordinate(rng, self.size))
    }

    fn inside(&self, at: [usize; 3]) -> bool {
        at.iter().all(|&c| c < self.size)
    }

    /// One edit on the product, on the model and, where `rust` is given, on the original.
    fn edit(
        &mut self,
        report: &mut Report,
        name: &str,
        product: impl Fn(&mut [u16], u32) -> Reply,
        model: impl Fn(&mut [u16], u32) -> Reply,
        rust: Option<impl Fn(&mut Chunk)>,
    ) {
        let mut ours = self.cells.clone();
        let answer = product(&mut ours, self.count);
        let before = self.count;
        let wanted = model(&mut self.cells, before);
        report.same(answer == wanted && ours == self.cells, || {
            format!(
                "{name}, size {}, count {before}: wanted {wanted:?}, product {answer:?}, cells equal: {}",
                self.size,
                ours == self.cells
            )
        });
        if wanted.number == 0 {
            self.count = wanted.value;
        }
        if let Some(rust) = rust {
            rust(&mut self.rust);
            self.agree(report, name);
        }
    }

    /// One question, which the original answers too where `rust` is given.
    fn ask(&self, report: &mut Report, name: &str, product: Reply, model: Reply, rust: Option<u32>) {
        report.same(product == model, || {
            format!(
                "{name}, size {}: wanted {model:?}, product {product:?}",
                self.size
            )
        });
        if let Some(value) = rust {
            let same = model == Reply { number: 0, value };
            report.same(same, || {
                format!(
                    "{name}, size {}: the original says {value}, the model {model:?}",
                    self.size
                )
            });
        }
    }

    fn questions(&self, report: &mut Report, rng: &mut Rng) {
        let at = self.at(rng);
        let (cells, size) = (&self.cells, self.size);
        let inside = self.inside(at);
        let get = || self.rust.get(at[0], at[1], at[2]) as u32;
        let name = format!("get {at:?}");
        self.ask(
            report,
            &name,
            product::get(cells, size, at),
            bare::get(cells, size, at),
            inside.then(get),
        );
        let air = || self.rust.is_air(at[0], at[1], at[2]) as u32;
        let name = format!("is_air {at:?}");
        self.ask(
            report,
            &name,
            product::is_air(cells, size, at),
            bare::is_air(cells, size, at),
            inside.then(air),
        );
        let empty = Some(self.rust.is_empty() as u32);
        self.ask(
            report,
            "is_empty",
            product::is_empty(cells, size),
            bare::is_empty(cells, size),
            empty,
        );
        let solid = Some(self.rust.is_solid() as u32);
        self.ask(
            report,
            "is_solid",
            product::is_solid(cells, size),
            bare::is_solid(cells, size),
            solid,
        );
    }

    fn set(&mut self, report: &mut Report, rng: &mut Rng) {
        let (size, at, block) = (self.size, self.at(rng), id(rng));
        self.edit(
            report,
            &format!("set {at:?} to {block}"),
            |cells, count| product::set(cells, size, count, at, block),
            |cells, count| bare::set(cells, size, count, at, block),
            self.inside(at)
                .then_some(move |c: &mut Chunk| c.set(at[0], at[1], at[2], block)),
        );
    }

    fn column(&mut self, report: &mut Report, rng: &mut Rng) {
        let (size, mut at, block) = (self.size, self.at(rng), id(rng));
        if rng.once_in(3) {
            at[2] = rng.pick(&[0, size, size + 1, 1000, 1 << 40, usize::MAX]);
        }
        self.edit(
            report,
            &format!("fill_column {at:?} with {block}"),
            |cells, count| product::fill_column(cells, size, count, at, block),
            |cells, count| bare::fill_column(cells, size, count, at, block),
            Some(move |c: &mut Chunk| c.fill_column(at[0], at[1], at[2], block)),
        );
    }

    fn replace(&mut self, report: &mut Report, rng: &mut Rng) {
        let size = self.size;
        let mut blocks = random_cells(rng, size);
        match rng.below(4) {
            0 => blocks.push(1),
            1 => drop(blocks.pop()),
            _ => {}
        }
        let fits = blocks.len() == self.cells.len();
        let given = &blocks;
        self.edit(
            report,
            &format!("replace_blocks by {} cells", given.len()),
            |cells, _| product::replace_blocks(cells, size, given),
            |cells, _| bare::replace_blocks(cells, size, given),
            fits.then_some(|c: &mut Chunk| c.replace_blocks(given).expect("the cells are size cubed")),
        );
    }

    fn set_blocks(&mut self, report: &mut Report, rng: &mut Rng) {
        // a long one is tried on a copy before it is laid
        let groups = if rng.once_in(8) { 600 } else { 30 };
        let edits = batch(rng, self.size, groups);
        let mut ours = self.cells.clone();
        let answer = product::set_blocks(&mut ours, self.size, self.count, &edits);
        let before = self.count;
        let wanted = bare::set_blocks(&mut self.cells, self.size, before, &edits);
        report.same(answer == wanted && ours == self.cells, || {
            format!("set_blocks {edits:?}, size {}, count {before}: wanted {wanted:?}, product {answer:?}, cells equal: {}", self.size, ours == self.cells)
        });
        self.count = wanted.count;
        let written = self.rust.set_blocks(&edits);
        report.same(written as usize == wanted.written, || {
            format!("set_blocks {edits:?}: the original writes {written}")
        });
        self.agree(report, "set_blocks");
    }

    fn border(&self, report: &mut Report, rng: &mut Rng) {
        // 6 and 7 name no face: 99, before all other tests.
        let face = rng.below(8) as usize;
        let right = self.size * self.size;
        let length = rng.pick(&[right, right, right, right + 1, right - 1, 0]);
        let mut border = vec![STALE; length];
        let answer = product::extract_border(&self.cells, self.size, face as u32, &mut border);
        let number = if face > 5 {
            99
        } else {
            bare::border_refusal(&self.cells, self.size, length)
        };
        let wanted = if number == 0 {
            self.rust.extract_border(original::chunk::Face::ALL[face])
        } else {
            vec![STALE; length]
        };
        report.same(answer.number == number && border == wanted, || {
            format!("extract_border {face}, size {}, border of {length}: wanted {number}, product {answer:?}, equal: {}", self.size, border == wanted)
        });
    }

    fn tally(&self, report: &mut Report, rng: &mut Rng) {
        let lists = tally::lists(rng, &bare::present(&self.cells), false);
        tally::called(report, &product::tally, &self.cells, self.size, &lists);
    }

    /// A call with a bad size, cells of another length or a wrong count: the model alone says
    /// what is wanted. The chunk itself stays as it was.
    fn hostile(&self, report: &mut Report, rng: &mut Rng) {
        let size = rng.pick(&[
            self.size,
            self.size,
            0,
            65,
            self.size + 1,
            self.size - 1,
            usize::MAX,
            1 << 32,
        ]);
        let most = self.cells.len() as u32;
        let count = rng.pick(&[
            0,
            1,
            self.count,
            most,
            most - 1,
            most + 1,
            u32::MAX,
            self.count.wrapping_sub(1),
        ]);
        let mut cells = self.cells.clone();
        match rng.below(6) {
            0 => cells.push(3),
            1 => drop(cells.pop()),
            2 => cells.clear(),
            _ => {}
        }
        let at: [usize; 3] = std::array::from_fn(|_| coordinate(rng, self.size));
        let block = id(rng);
        let (mut ours, mut model) = (cells.clone(), cells);
        let (answer, wanted) = match rng.below(7) {
            0 => (
                product::set(&mut ours, size, count, at, block),
                bare::set(&mut model, size, count, at, block),
            ),
            1 => (
                product::fill_column(&mut ours, size, count, at, block),
                bare::fill_column(&mut model, size, count, at, block),
            ),
            2 => (product::get(&ours, size, at), bare::get(&model, size, at)),
            3 => (product::is_air(&ours, size, at), bare::is_air(&model, size, at)),
            4 => (product::is_empty(&ours, size), bare::is_empty(&model, size)),
            5 => (product::is_solid(&ours, size), bare::is_solid(&model, size)),
            _ => (
                product::replace_blocks(&mut ours, size, &self.cells),
                bare::replace_blocks(&mut model, size, &self.cells),
            ),
        };
        report.same(answer == wanted && ours == model, || {
            format!("hostile call, size {size}, {} cells, count {count}, {at:?}, id {block}: wanted {wanted:?}, product {answer:?}", model.len())
        });
        let groups = if rng.once_in(8) { 400 } else { 12 };
        let edits = batch(rng, self.size, groups);
        let answer = product::set_blocks(&mut ours, size, count, &edits);
        let wanted = bare::set_blocks(&mut model, size, count, &edits);
        report.same(answer == wanted && ours == model, || {
            format!("hostile batch {edits:?}, size {size}, {} cells, count {count}: wanted {wanted:?}, product {answer:?}", model.len())
        });
    }
}

/// One call of a random kind.
fn call(report: &mut Report, rng: &mut Rng, both: &mut Both) {
    match rng.below(10) {
        0 => both.questions(report, rng),
        1 | 2 => both.set(report, rng),
        3 | 4 => both.column(report, rng),
        5 if rng.once_in(4) => both.replace(report, rng),
        6 | 7 => both.set_blocks(report, rng),
        8 => both.border(report, rng),
        9 => both.tally(report, rng),
        _ => both.hostile(report, rng),
    }
}

pub fn run(report: &mut Report) {
    let before = report.comparisons;
    let mut rng = Rng::new(7);
    for _ in 0..CALLS / LIST {
        let mut both = Both::new(&mut rng);
        for _ in 0..LIST {
            call(report, &mut rng, &mut both);
        }
    }
    println!(
        "chunk: {CALLS} calls, {} comparisons",
        report.comparisons - before
    );
}
