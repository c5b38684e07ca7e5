//! Random presses that alter nothing on given cells, each with the reply that is worked out as it is made, and presses
//! that come near it.
use crate::chunk::id;
use crate::journals;
use crate::model::{Call, Lent, Reply};
use crate::rng::Rng;

/// The cells that a press is made for.
pub struct View<'a> {
    pub size: usize,
    pub cells: &'a [u16],
}

type Group = ([usize; 3], u16);

impl View<'_> {
    fn id(&self, [x, y, z]: [usize; 3]) -> u16 {
        self.cells[x + y * self.size + z * self.size * self.size]
    }

    /// A cell, and the id that it holds.
    fn any(&self, rng: &mut Rng) -> Group {
        let at = std::array::from_fn(|_| rng.below(self.size as u64) as usize);
        (at, self.id(at))
    }

    /// A cell that is none of the chunk's, in one coordinate or in all.
    fn outside(&self, rng: &mut Rng) -> [usize; 3] {
        let beyond = rng.pick(&[self.size, self.size + 1, 64, 65_536]).max(self.size);
        let (mut at, axis) = (self.any(rng).0, rng.below(4) as usize);
        match at.get_mut(axis) {
            Some(c) => *c = beyond,
            None => at = [beyond; 3],
        }
        at
    }

    /// How many cells of a column hold, from the bottom up, the id of the lowest.
    fn run(&self, x: usize, z: usize) -> usize {
        let lowest = self.id([x, 0, z]);
        (0..self.size)
            .take_while(|&y| self.id([x, y, z]) == lowest)
            .count()
    }
}

/// The cells that a session is lent.
pub fn view(lent: &Lent) -> View<'_> {
    View {
        size: lent.record.site.chunk_size,
        cells: &lent.cells,
    }
}

/// Makes a press, and the reply that it must get where the record is sound.
pub type Make = fn(&mut Rng, &View) -> (Call, Reply);

/// The presses after which every cell of the view is the same, those with an edit first.
pub const PRESSES: [(&str, Make); 9] = [
    ("set onto itself", set_onto_itself),
    ("column of height 0", column_of_height_0),
    ("column that is there", column_there),
    ("batch that sets and sets back", batch_back),
    ("batch of ids that are there", batch_there),
    ("column outside", column_outside),
    ("batch outside", batch_outside),
    ("set outside", set_outside),
    ("batch of 17 groups", batch_of_17),
];

/// How many of them are edits, accepted without a line because they alter nothing.
const EDITS: usize = 5;

fn set_onto_itself(rng: &mut Rng, view: &View) -> (Call, Reply) {
    let (at, previous) = view.any(rng);
    let reply = Reply {
        previous,
        ..Reply::default()
    };
    (Call::Set(at, previous), reply)
}

fn column_of_height_0(rng: &mut Rng, view: &View) -> (Call, Reply) {
    let [x, _, z] = view.any(rng).0;
    let (height, id) = (0, id(rng));
    (Call::Column { x, z, height, id }, Reply::default())
}

fn column_there(rng: &mut Rng, view: &View) -> (Call, Reply) {
    let [x, _, z] = view.any(rng).0;
    let (run, id) = (view.run(x, z), view.id([x, 0, z]));
    let height = if run == view.size {
        rng.pick(&[1, run, run + 1, usize::MAX])
    } else {
        rng.range(1, run as i64) as usize
    };
    (Call::Column { x, z, height, id }, Reply::default())
}

/// The numbers of a batch with these groups in their order: ids above 65,535, groups outside among them, and up to three
/// numbers left over.
fn numbers(rng: &mut Rng, view: &View, groups: &[Group]) -> Vec<u32> {
    let mut all = vec![];
    let mut put = |rng: &mut Rng, at: [usize; 3], id: u16| {
        all.extend(at.map(|c| c as u32));
        all.push(u32::from(id) + 65_536 * rng.pick(&[0, 0, 1, 65_535]));
    };
    let mut outside = rng.pick(&[0, 0, 1, 3]);
    for &(at, one) in groups {
        if outside > 0 && rng.once_in(2) {
            let (far, any) = (view.outside(rng), id(rng));
            put(rng, far, any);
            outside -= 1;
        }
        put(rng, at, one);
    }
    all.extend((0..rng.below(4)).map(|_| rng.draw() as u32));
    all
}

/// A batch's call and the reply that tells its groups.
fn batch(rng: &mut Rng, view: &View, groups: &[Group]) -> (Call, Reply) {
    let reply = Reply {
        written: groups.len(),
        ..Reply::default()
    };
    (Call::Batch(numbers(rng, view, groups)), reply)
}

/// Groups that set some cells to other ids and back to their own, in any order that ends with these.
fn back(rng: &mut Rng, view: &View) -> Vec<Group> {
    let mut lists: Vec<Vec<Group>> = vec![];
    for _ in 0..rng.range(1, 3) {
        let (at, held) = view.any(rng);
        let mut list = vec![(at, held.wrapping_add(rng.range(1, 9) as u16))];
        list.extend((0..rng.below(3)).map(|_| (at, id(rng))));
        list.push((at, held));
        lists.push(list);
    }
    let mut groups = vec![];
    while !lists.is_empty() {
        let i = rng.below(lists.len() as u64) as usize;
        groups.push(lists[i].remove(0));
        lists.retain(|list| !list.is_empty());
    }
    groups
}

fn batch_back(rng: &mut Rng, view: &View) -> (Call, Reply) {
    let groups = back(rng, view);
    batch(rng, view, &groups)
}

fn batch_there(rng: &mut Rng, view: &View) -> (Call, Reply) {
    let groups: Vec<Group> = (0..rng.range(1, 13)).map(|_| view.any(rng)).collect();
    batch(rng, view, &groups)
}

fn column_outside(rng: &mut Rng, view: &View) -> (Call, Reply) {
    let beyond = rng.pick(&[view.size, view.size + 1, usize::MAX]);
    let (mut x, mut z) = (rng.below(view.size as u64) as usize, beyond);
    if rng.once_in(2) {
        (x, z) = (z, x);
    }
    let (height, id) = (rng.pick(&[0, 1, view.size, usize::MAX]), id(rng));
    (Call::Column { x, z, height, id }, Reply::default())
}

fn batch_outside(rng: &mut Rng, view: &View) -> (Call, Reply) {
    let groups: Vec<Group> = (0..rng.below(13)).map(|_| (view.outside(rng), id(rng))).collect();
    (Call::Batch(numbers(rng, view, &groups)), Reply::default())
}

fn set_outside(rng: &mut Rng, view: &View) -> (Call, Reply) {
    let held = view.any(rng).1;
    let id = rng.pick(&[held, 0, 1]);
    (Call::Set(view.outside(rng), id), Reply::refused(7))
}

/// 17 groups and more, of ids that are there or outside.
fn batch_of_17(rng: &mut Rng, view: &View) -> (Call, Reply) {
    let inside = rng.below(4);
    let groups: Vec<Group> = (0..rng.pick(&[17, 17, 18, 40]))
        .map(|_| match rng.below(3) < inside {
            true => view.any(rng),
            false => (view.outside(rng), id(rng)),
        })
        .collect();
    (Call::Batch(numbers(rng, view, &groups)), Reply::refused(8))
}

/// A press that mostly alters one cell: another id, a column one higher than its run, a batch that comes back to all of
/// its cells but one, at its first group, its last one or between.
pub fn near(rng: &mut Rng, view: &View) -> Call {
    let (at, held) = view.any(rng);
    let other = held.wrapping_add(rng.range(1, 3) as u16);
    match rng.below(4) {
        0 => Call::Set(at, other),
        1 => {
            let [x, _, z] = at;
            let (height, id) = (view.run(x, z) + 1, view.id([x, 0, z]));
            Call::Column { x, z, height, id }
        }
        2 => {
            let mut groups = back(rng, view);
            let i = rng.below(groups.len() as u64 + 1) as usize;
            groups.insert(i, (at, other));
            Call::Batch(numbers(rng, view, &groups))
        }
        _ => journals::edit(rng, view.size),
    }
}

/// Any of the presses that alter nothing.
pub fn idle(rng: &mut Rng, view: &View) -> Call {
    let (_, make) = rng.pick(&PRESSES[..EDITS]);
    make(rng, view).0
}

/// A call of a child that often taps a block onto itself.
pub fn tapping(rng: &mut Rng, lent: &Lent) -> Call {
    match rng.below(8) {
        0..=2 => idle(rng, &view(lent)),
        3 => near(rng, &view(lent)),
        4 | 5 => Call::Undo,
        _ => journals::call(rng, lent.record.site.chunk_size),
    }
}
