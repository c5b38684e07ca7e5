//! A chunk's planes: `to_planes` and `from_planes` of a library against those of bare.rs, whole: the answer, and every
//! place of both lent buffers, of that which is only read too. Some planes were worked out by hand. The library is two
//! functions, so that the tests can run the driver on the model itself and on broken ones.
use crate::bare::{self, Reply, PLANES};
use crate::chunk::{random_cells, STALE};
use crate::ground::{surface, Laid, Site};
use crate::idle::note;
use crate::meets::Met;
use crate::product;
use crate::report::Report;
use crate::rng::Rng;
use crate::seeds;
use crate::tally::first_other;
use std::collections::BTreeSet;

/// A call of a library: the cells, their size, the bytes. It is lent both as if it could write both.
pub type Call<'a> = &'a dyn Fn(&mut [u16], usize, &mut [u8]) -> Reply;

#[derive(Clone, Copy)]
pub struct Library<'a> {
    pub to: Call<'a>,
    pub from: Call<'a>,
}

pub const MODEL: Library = Library {
    to: &|cells, size, bytes| bare::to_planes(cells, size, bytes),
    from: &|cells, size, bytes| bare::from_planes(bytes, size, cells),
};

const PRODUCT: Library = Library {
    to: &product::to_planes,
    from: &|cells, size, bytes| product::from_planes(bytes, size, cells),
};

/// What an accepted call answers.
const ACCEPTED: Reply = Reply { number: 0, value: 0 };

/// What a buffer of bytes holds before a call, beside `STALE` of cells.
const STALE_BYTE: u8 = 0x5a;

/// Where parts of longer buffers begin.
const FROM: [usize; 4] = [1, 2, 3, 7];

/// The two calls.
#[derive(Clone, Copy)]
enum Way {
    To,
    From,
}

const WAYS: [Way; 2] = [Way::To, Way::From];

impl Way {
    fn name(self) -> &'static str {
        match self {
            Way::To => "to_planes",
            Way::From => "from_planes",
        }
    }

    fn of<'a>(self, library: &Library<'a>) -> Call<'a> {
        match self {
            Way::To => library.to,
            Way::From => library.from,
        }
    }

    fn other(self) -> Way {
        match self {
            Way::To => Way::From,
            Way::From => Way::To,
        }
    }
}

/// What a call is lent.
#[derive(Clone, PartialEq)]
struct Lent {
    cells: Vec<u16>,
    size: usize,
    bytes: Vec<u8>,
}

impl Lent {
    fn call(&mut self, call: Call) -> Reply {
        call(&mut self.cells, self.size, &mut self.bytes)
    }

    /// The same with other numbers, at each place, in what this call is to write.
    fn spoilt(&self, way: Way) -> Lent {
        let mut lent = self.clone();
        match way {
            Way::To => lent.bytes.iter_mut().for_each(|byte| *byte = !*byte),
            Way::From => lent.cells.iter_mut().for_each(|id| *id = !*id),
        }
        lent
    }

    /// Longer buffers that hold these from a place on, and as many places behind them.
    fn within(&self, from: usize) -> Lent {
        let (cells, bytes) = (vec![STALE; from], vec![STALE_BYTE; from]);
        Lent {
            cells: [&cells, &self.cells, &cells].map(|part| &part[..]).concat(),
            size: self.size,
            bytes: [&bytes, &self.bytes, &bytes].map(|part| &part[..]).concat(),
        }
    }

    /// The same with any numbers there.
    fn random(&self, way: Way, rng: &mut Rng) -> Lent {
        let mut lent = self.clone();
        match way {
            Way::To => lent.bytes.iter_mut().for_each(|byte| *byte = rng.draw() as u8),
            Way::From => lent.cells.iter_mut().for_each(|id| *id = rng.draw() as u16),
        }
        lent
    }
}

/// A chunk and its planes, by the model.
fn whole(size: usize, cells: Vec<u16>) -> Lent {
    let bytes = vec![0; 2 * cells.len()];
    let mut lent = Lent { cells, size, bytes };
    lent.call(MODEL.to);
    lent
}

/// A chunk of no id but this one, in one cell.
fn single(size: usize, i: usize, id: u16) -> Vec<u16> {
    let mut cells = vec![0; size.pow(3)];
    cells[i] = id;
    cells
}

/// Where a cell lies in the slice (SCOPE 5.1).
fn index(size: usize, [x, y, z]: [usize; 3]) -> usize {
    x + size * (y + size * z)
}

/// The low bytes of a chunk of size 4 in whose cells these are the indices: the eight cells with x, y and z below 2,
/// then those 2 further along x, along y, along both; then the same 2 further along z.
#[rustfmt::skip]
const OF_FOUR: [u8; 64] = [
    0, 1, 4, 5, 16, 17, 20, 21,
    2, 3, 6, 7, 18, 19, 22, 23,
    8, 9, 12, 13, 24, 25, 28, 29,
    10, 11, 14, 15, 26, 27, 30, 31,
    32, 33, 36, 37, 48, 49, 52, 53,
    34, 35, 38, 39, 50, 51, 54, 55,
    40, 41, 44, 45, 56, 57, 60, 61,
    42, 43, 46, 47, 58, 59, 62, 63,
];

/// The high bytes of the same chunk, where each id's is 100 more than its low byte.
#[rustfmt::skip]
const HIGH_OF_FOUR: [u8; 64] = [
    100, 101, 104, 105, 116, 117, 120, 121,
    102, 103, 106, 107, 118, 119, 122, 123,
    108, 109, 112, 113, 124, 125, 128, 129,
    110, 111, 114, 115, 126, 127, 130, 131,
    132, 133, 136, 137, 148, 149, 152, 153,
    134, 135, 138, 139, 150, 151, 154, 155,
    140, 141, 144, 145, 156, 157, 160, 161,
    142, 143, 146, 147, 158, 159, 162, 163,
];

/// Cells and their positions, worked out by hand: size, (x, y, z), position. The first are the cells with one bit; the
/// others are sums of these.
const BY_HAND: [(usize, [usize; 3], usize); 27] = [
    (2, [1, 0, 0], 1),
    (2, [0, 1, 0], 2),
    (2, [0, 0, 1], 4),
    (8, [4, 0, 0], 64),
    (8, [0, 4, 0], 128),
    (8, [0, 0, 4], 256),
    (16, [8, 0, 0], 512),
    (16, [0, 8, 0], 1024),
    (16, [0, 0, 8], 2048),
    (32, [16, 0, 0], 4096),
    (32, [0, 16, 0], 8192),
    (32, [0, 0, 16], 16_384),
    (64, [32, 0, 0], 32_768),
    (64, [0, 32, 0], 65_536),
    (64, [0, 0, 32], 131_072),
    // 1 + 64, 16, 32 + 256
    (8, [5, 2, 6], 369),
    (8, [7, 7, 7], 511),
    // 1, 16, 4 + 32
    (16, [1, 2, 3], 53),
    // 1 + 8 + 64 + 512
    (16, [15, 0, 0], 585),
    // 1 + 8 + 64 + 512 + 4096, and twice that
    (32, [31, 31, 0], 14_043),
    (64, [1, 2, 3], 53),
    (64, [63, 0, 0], 37_449),
    (64, [0, 63, 0], 74_898),
    (64, [0, 0, 63], 149_796),
    // 1 + 32,768, 16 + 8192, 256 + 2048
    (64, [33, 18, 12], 43_281),
    (64, [63, 63, 63], 262_143),
    (64, [0, 0, 0], 0),
];

/// Chunks and their planes, worked out by hand. At size 2 Morton order is that of the slice.
fn by_hand() -> Vec<Lent> {
    let two = vec![0x0901, 0x0a02, 0x0b03, 0x0c04, 0x0d05, 0x0e06, 0x0f07, 0x1008];
    let mut all = vec![
        Lent {
            cells: vec![0x0201],
            size: 1,
            bytes: vec![1, 2],
        },
        Lent {
            cells: two,
            size: 2,
            bytes: vec![1, 2, 3, 4, 5, 6, 7, 8, 9, 10, 11, 12, 13, 14, 15, 16],
        },
        Lent {
            cells: (0..64).map(|i| i + 256 * (100 + i)).collect(),
            size: 4,
            bytes: [OF_FOUR, HIGH_OF_FOUR].concat(),
        },
    ];
    all.extend(PLANES.map(places_by_hand));
    all
}

/// A chunk that has another id in each of its cells of `BY_HAND`, and its planes.
fn places_by_hand(size: usize) -> Lent {
    let many = size.pow(3);
    let (mut cells, mut bytes) = (vec![0; many], vec![0; 2 * many]);
    for (k, &(of, at, position)) in (1..).zip(&BY_HAND) {
        if of == size {
            cells[index(size, at)] = u16::from(k) + 256 * u16::from(200 + k);
            bytes[position] = k;
            bytes[many + position] = 200 + k;
        }
    }
    Lent { cells, size, bytes }
}

/// Chunks of a size: any ids, none, 65,535 alone, low bytes alone, high bytes alone; in each cell its index, or that
/// times an odd number, which gives every id at size 64; few ids and air.
fn fillings(rng: &mut Rng, size: usize) -> Vec<Vec<u16>> {
    let all = |cell: &mut dyn FnMut(usize) -> u16| (0..size.pow(3)).map(cell).collect();
    let odd = rng.draw() as u16 | 1;
    vec![
        all(&mut |_| rng.draw() as u16),
        all(&mut |_| 0),
        all(&mut |_| u16::MAX),
        all(&mut |_| rng.below(256) as u16),
        all(&mut |_| 256 * rng.below(256) as u16),
        all(&mut |i| i as u16),
        all(&mut |i| (i as u16).wrapping_mul(odd)),
        random_cells(rng, size),
    ]
}

/// Generated ground, at the surface.
fn ground(rng: &mut Rng, chunk_size: usize) -> Vec<u16> {
    let mut site = Site {
        seed: seeds::any(rng),
        sea_level: rng.pick(&[24, 24, 40]),
        world_height_blocks: 256,
        chunk_size,
        cx: rng.range(-2000, 2000) as i32,
        cy: 0,
        cz: rng.range(-2000, 2000) as i32,
    };
    site.cy = surface(&site);
    let mut cells = vec![STALE; chunk_size.pow(3)];
    let laid = product::generate(&site, &mut cells);
    assert!(matches!(laid, Laid::Count(_)), "a site within the limits");
    cells
}

/// The cells that are tried by themselves: up to size 8 each; above so many, the corners first, those of one bit, any.
fn lone_cells(rng: &mut Rng, size: usize, many: usize) -> Vec<usize> {
    if size <= 8 {
        return (0..size.pow(3)).collect();
    }
    let corner = |k: usize| [k % 2, k / 2 % 2, k / 4].map(|end| end * (size - 1));
    let mut all: Vec<usize> = (0..8).map(|k| index(size, corner(k))).collect();
    let bits = (0..).map(|bit| 1 << bit).take_while(|&c| c < size);
    all.extend(bits.flat_map(|c| [c, size * c, size * size * c]));
    all.resize_with(many.max(all.len()), || rng.below(size.pow(3) as u64) as usize);
    all.truncate(many);
    all
}

/// The numbers of cells and of bytes with which calls of a size are tried; for one that is none, those of the size that
/// its lowest byte is. Where such a size is above 16 they are fewer, and every set of causes is still there.
fn lengths(size: usize) -> Vec<[usize; 2]> {
    let low = size % 256;
    let n = if low <= LENT { low.pow(3) } else { 0 };
    let (m, less) = (2 * n, |n: usize| n.saturating_sub(1));
    if low > 16 && !PLANES.contains(&size) {
        return vec![
            [n, m],
            [n, less(m)],
            [less(n), m],
            [n + 1, m + 1],
            [n / 2, n],
            [0, 0],
        ];
    }
    let cells = [n, less(n), n + 1, n / 2, m, n / 8, 4 * m, 0];
    let bytes = [
        m,
        less(m),
        m + 1,
        less(less(m)),
        m + 2,
        n,
        3 * n,
        2 * m,
        m / 8,
        8 * m,
        0,
    ];
    let pairs = cells
        .into_iter()
        .flat_map(|cells| bytes.map(|bytes| [cells, bytes]));
    pairs.collect()
}

/// The greatest size whose cells are lent in their right number.
const LENT: usize = 130;

/// Sizes that are none, and whose cells cannot be lent. Some are a size in their lowest 8, 16, 32 or 63 bits, and of
/// some a cube, or twice it, is 0 in 64 bits.
const FAR: [usize; 18] = [
    255,
    256,
    257,
    272,
    320,
    4096,
    65_536,
    65_552,
    65_600,
    1 << 21,
    1 << 22,
    1 << 32,
    (1 << 32) + 1,
    (1 << 32) + 16,
    (1 << 32) + 64,
    1 << 63,
    (1 << 63) + 8,
    usize::MAX,
];

/// The causes of a refusal that hold for what is lent, in their order.
fn causes(lent: &Lent) -> String {
    let cube = lent.size.checked_pow(3);
    let twice = cube.and_then(|n| n.checked_mul(2));
    let all = [
        ("28", !PLANES.contains(&lent.size)),
        ("6", cube != Some(lent.cells.len())),
        ("29", twice != Some(lent.bytes.len())),
    ];
    let held: Vec<&str> = all.iter().filter(|cause| cause.1).map(|cause| cause.0).collect();
    held.join(" and ")
}

/// Every set of causes.
const CAUSES: [&str; 7] = [
    "28",
    "6",
    "29",
    "28 and 6",
    "28 and 29",
    "6 and 29",
    "28 and 6 and 29",
];

/// What a chunk of each size is to hold once, and whether this one does.
fn contents(cells: &[u16]) -> [(&'static str, bool); 5] {
    let some = cells.iter().any(|&id| id != 0);
    [
        ("no id", !some),
        ("65,535 alone", cells.iter().all(|&id| id == u16::MAX)),
        ("low bytes alone", some && cells.iter().all(|&id| id < 256)),
        ("high bytes alone", some && cells.iter().all(|&id| id % 256 == 0)),
        ("both bytes", cells.iter().any(|&id| id > 255 && id % 256 != 0)),
    ]
}

/// How many ids these cells hold.
fn many_ids(cells: &[u16]) -> usize {
    let mut held = vec![false; 65_536];
    cells.iter().for_each(|&id| held[id as usize] = true);
    held.iter().filter(|&&held| held).count()
}

/// How much a run does: how many times a size's chunks are filled and laid by the ground, how many cells above size 8 are
/// tried by themselves, and the sizes for refused calls.
pub struct Amount {
    pub rounds: usize,
    pub grounds: u64,
    pub alone: usize,
    pub sizes: Vec<usize>,
}

pub fn full() -> Amount {
    Amount {
        rounds: 4,
        grounds: 6,
        alone: 60,
        sizes: (0..=LENT).chain(FAR).collect(),
    }
}

/// A run on one library, and what it met.
struct Run<'a> {
    report: &'a mut Report,
    rng: Rng,
    library: Library<'a>,
    met: Met,
    /// The cells that a call had by themselves: the call, the size, the cell.
    alone: BTreeSet<(&'static str, usize, usize)>,
}

impl Run<'_> {
    /// One call on both sides.
    fn called(&mut self, way: Way, before: Lent) {
        let (mut ours, mut left) = (before.clone(), before);
        let answer = ours.call(way.of(&self.library));
        let wanted = left.call(way.of(&MODEL));
        self.judge(way, &left, &ours, wanted, answer);
    }

    /// Notes what a call met: the causes of its refusal, or the chunk that is in both buffers after it.
    fn note(&mut self, way: Way, left: &Lent, number: u32) {
        let (way, size) = (way.name(), left.size);
        if number != 0 {
            return note(&mut self.met, format!("{way} with {}", causes(left)));
        }
        for (kind, _) in contents(&left.cells).iter().filter(|kind| kind.1) {
            note(&mut self.met, format!("{way} at size {size}: {kind}"));
        }
        if bare::non_air(&left.cells) == 1 {
            let cell = left.cells.iter().position(|&id| id != 0);
            self.alone.extend(cell.map(|i| (way, size, i)));
        }
        if size == 64 && many_ids(&left.cells) == 65_536 {
            note(&mut self.met, format!("{way}: every id"));
        }
    }

    /// A call on a chunk whose planes are known. What it is to write holds another number at each place before.
    fn known(&mut self, way: Way, given: &Lent) {
        let mut ours = given.spoilt(way);
        let answer = ours.call(way.of(&self.library));
        self.judge(way, given, &ours, ACCEPTED, answer);
    }

    /// Holds what a call left, and its answer, to what is wanted.
    fn judge(&mut self, way: Way, left: &Lent, ours: &Lent, wanted: Reply, answer: Reply) {
        self.report.same(answer == wanted && ours == left, || {
            let (name, size, n, m) = (way.name(), left.size, left.cells.len(), left.bytes.len());
            let cell = first_other(&left.cells, &ours.cells);
            let byte = first_other(&left.bytes, &ours.bytes);
            format!(
                "{name}, size {size}, {n} cells, {m} bytes: wanted {wanted:?}, product {answer:?}; (place, wanted, \
                 product) of the first other cell {cell:?}, of the first other byte {byte:?}"
            )
        });
        self.note(way, left, wanted.number);
    }

    /// One call of the library and then the other, which must restore what the first was given.
    fn undone(&mut self, first: Way, given: &Lent) {
        let mut ours = given.spoilt(first);
        let one = ours.call(first.of(&self.library));
        ours = ours.spoilt(first.other());
        let two = ours.call(first.other().of(&self.library));
        let same = match first {
            Way::To => ours.cells == given.cells,
            Way::From => ours.bytes == given.bytes,
        };
        self.report.same(same && [one, two] == [ACCEPTED; 2], || {
            let (name, size) = (first.name(), given.size);
            format!("{name} and back, size {size}: answers {one:?} and {two:?}, restored: {same}")
        });
    }

    /// A chunk both ways, in buffers that hold other numbers and any.
    fn chunk(&mut self, size: usize, cells: Vec<u16>) -> Lent {
        let given = whole(size, cells);
        for way in WAYS {
            self.known(way, &given);
            let lent = given.random(way, &mut self.rng);
            self.called(way, lent);
        }
        given
    }

    /// Any bytes as planes, undone too, and one of them by itself; any cells, undone.
    fn planes(&mut self, size: usize) {
        let many = 2 * size.pow(3);
        let mut lent = Lent {
            cells: vec![STALE; size.pow(3)],
            size,
            bytes: (0..many).map(|_| self.rng.draw() as u8).collect(),
        };
        self.undone(Way::From, &lent);
        let cells = lent.random(Way::From, &mut self.rng);
        self.undone(Way::To, &cells);
        self.called(Way::From, lent.clone());
        lent.bytes.fill(0);
        lent.bytes[self.rng.below(many as u64) as usize] = self.rng.range(1, 255) as u8;
        self.called(Way::From, lent);
    }

    /// Any cells both ways in parts of longer buffers, from this place on, so that the bytes begin at an odd address too:
    /// what lies around the parts stays.
    fn within(&mut self, size: usize, from: usize) {
        let cells = (0..size.pow(3)).map(|_| self.rng.draw() as u16).collect();
        let given = whole(size, cells);
        for way in WAYS {
            let mut ours = given.spoilt(way).within(from);
            let (n, m) = (given.cells.len(), given.bytes.len());
            let (cells, bytes) = (&mut ours.cells[from..from + n], &mut ours.bytes[from..from + m]);
            let answer = way.of(&self.library)(cells, size, bytes);
            let same = ours == given.within(from);
            self.report.same(same && answer == ACCEPTED, || {
                let name = way.name();
                format!("{name}, size {size}, from place {from} on: {answer:?}, as wanted: {same}")
            });
        }
    }

    /// One cell by itself both ways, with an id of a low byte, a high byte or both.
    fn lone(&mut self, size: usize, i: usize) {
        let (low, high) = (self.rng.range(1, 255) as u16, self.rng.range(1, 255) as u16);
        let id = self.rng.pick(&[low, 256 * high, low + 256 * high]);
        let given = whole(size, single(size, i, id));
        for way in WAYS {
            self.known(way, &given);
        }
    }

    /// All chunks of a size.
    fn size(&mut self, size: usize, amount: &Amount) {
        for from in FROM.into_iter().cycle().take(amount.rounds) {
            for cells in fillings(&mut self.rng, size) {
                self.chunk(size, cells);
            }
            self.planes(size);
            self.within(size, from);
        }
        for _ in 0..amount.grounds {
            let cells = ground(&mut self.rng, size);
            if many_ids(&cells) > 1 {
                note(&mut self.met, format!("ground at size {size}"));
            }
            let given = self.chunk(size, cells);
            self.undone(Way::To, &given);
        }
        for i in lone_cells(&mut self.rng, size, amount.alone) {
            self.lone(size, i);
        }
    }

    /// Calls of a size with cells and bytes of many lengths. Short buffers hold any numbers, others one.
    fn lengths(&mut self, size: usize) {
        for [n, m] in lengths(size) {
            for way in WAYS {
                let mut lent = Lent {
                    cells: vec![STALE; n],
                    size,
                    bytes: vec![STALE_BYTE; m],
                };
                if n.max(m) < 10_000 {
                    lent = lent
                        .random(Way::To, &mut self.rng)
                        .random(Way::From, &mut self.rng);
                }
                self.called(way, lent);
            }
        }
    }

    /// Fails for what was never met.
    fn close(&mut self) {
        let unmet = kinds().into_iter().filter(|kind| !self.met.contains_key(kind));
        for kind in unmet {
            self.report.fail(format!("no compared call has '{kind}'"));
        }
        for size in PLANES.into_iter().filter(|&size| size <= 8) {
            for way in WAYS.map(Way::name) {
                let all = (0..size.pow(3)).all(|i| self.alone.contains(&(way, size, i)));
                if !all {
                    let text = format!("{way} at size {size} did not have each cell by itself");
                    self.report.fail(text);
                }
            }
        }
    }
}

/// The kinds that a run is to meet.
fn kinds() -> Vec<String> {
    let mut all = vec![];
    for way in WAYS.map(Way::name) {
        for size in PLANES {
            all.extend(contents(&[]).map(|(kind, _)| format!("{way} at size {size}: {kind}")));
        }
        all.push(format!("{way}: every id"));
        all.extend(CAUSES.map(|set| format!("{way} with {set}")));
    }
    let larger = PLANES.iter().filter(|&&size| size >= 4);
    all.extend(larger.map(|size| format!("ground at size {size}")));
    all
}

/// All of it on one library. A kind that was never met is a failure.
pub fn compare(report: &mut Report, library: Library, amount: &Amount) {
    let before = report.comparisons;
    let mut run = Run {
        report,
        rng: Rng::new(13),
        library,
        met: Met::new(),
        alone: BTreeSet::new(),
    };
    for given in by_hand() {
        WAYS.iter().for_each(|&way| run.known(way, &given));
    }
    for size in PLANES {
        run.size(size, amount);
    }
    for &size in &amount.sizes {
        run.lengths(size);
    }
    run.close();
    let alone = run.alone.len();
    let refused = run.met.iter().filter(|kind| kind.0.contains(" with "));
    let refused: Vec<String> = refused.map(|(kind, n)| format!("{kind} {n}")).collect();
    println!("planes: {alone} cells alone, {}", refused.join(", "));
    println!("planes: {} comparisons", report.comparisons - before);
}

pub fn run(report: &mut Report) {
    compare(report, PRODUCT, &full());
}
