//! The index of points by hand: a list of points and a `BTreeMap` from points to ascending lists of players, both changed together.
//! `twin [N=100000] [ITERATIONS=15] [NAME-PREFIX]` prints `name<TAB>ns_per_op<TAB>checksum` for the workloads of `src/boards.rt.src`,
//! the best run of ITERATIONS, as the benchmark does.

use std::collections::BTreeMap;
use std::hint::black_box;
use std::time::Instant;

/// Which points there are: how many numbers players begin with, how many points a change adds, and where they begin anew.
#[derive(Clone, Copy)]
struct Keys {
    begin: i64,
    step: i64,
    end: i64,
}

const SOME: Keys = Keys { begin: 1024, step: 1, end: 1024 };
const SAME: Keys = Keys { begin: 1, step: 1, end: 2 };

fn own(count: u32) -> Keys {
    let count = i64::from(count);
    Keys { begin: count, step: count, end: 2 * count }
}

impl Keys {
    fn first(self, number: u32) -> i64 {
        i64::from(number).checked_rem(self.begin).unwrap_or(0)
    }

    fn next(self, points: i64) -> i64 {
        let more = points + self.step;
        if more < self.end { more } else { more - self.end }
    }
}

/// A checksum's step, which tells the order.
fn mix(sum: u64, value: u64) -> u64 {
    sum.wrapping_mul(31).wrapping_add(value)
}

/// Shuffles a list by a xorshift generator, from its end.
fn shuffle(list: &mut [u32]) {
    let mut state: u64 = 0x9E37_79B9_7F4A_7C15;
    for i in (1..list.len()).rev() {
        state ^= state << 13;
        state ^= state >> 7;
        state ^= state << 17;
        list.swap(i, (state % (i as u64 + 1)) as usize);
    }
}

/// Players with points, in a shuffled order, and the lists of each number of points.
struct Board {
    points: Vec<i64>,
    list: Vec<u32>,
    index: BTreeMap<i64, Vec<u32>>,
}

impl Board {
    fn new(count: u32, keys: Keys) -> Self {
        let mut list: Vec<u32> = (0..count).collect();
        shuffle(&mut list);
        Board {
            points: (0..count).map(|number| keys.first(number)).collect(),
            list,
            index: BTreeMap::new(),
        }
    }

    fn built(count: u32, keys: Keys) -> Self {
        let mut board = Board::new(count, keys);
        board.build();
        board
    }

    fn build(&mut self) {
        let mut index: BTreeMap<i64, Vec<u32>> = BTreeMap::new();
        for (id, points) in self.points.iter().enumerate() {
            index.entry(*points).or_default().push(id as u32);
        }
        self.index = index;
    }

    /// One player gets other points, and leaves one list for another.
    fn change(&mut self, id: u32, keys: Keys) {
        let old = self.points[id as usize];
        let new = keys.next(old);
        self.points[id as usize] = new;
        let list = self.index.entry(new).or_default();
        if let Err(place) = list.binary_search(&id) {
            list.insert(place, id);
        }
        if let Some(list) = self.index.get_mut(&old) {
            if let Ok(place) = list.binary_search(&id) {
                list.remove(place);
            }
            if list.is_empty() {
                self.index.remove(&old);
            }
        }
    }

    fn at(&self, points: i64) -> &[u32] {
        self.index.get(&points).map_or(&[], |list| list)
    }

    fn sum(&self, end: i64) -> u64 {
        (0..end).fold(0, |sum, points| {
            let list = self.at(points);
            list.iter().fold(mix(sum, list.len() as u64), |sum, id| mix(sum, u64::from(*id)))
        })
    }
}

/// How many runs come first, which are not timed.
const UNTIMED: u64 = 2;

/// Prints the best of the runs of a workload of so many operations, if its name begins with the prefix. `work` alone is timed.
fn report(
    plan: &Plan,
    name: &str,
    operations: u64,
    prepare: impl Fn() -> Board,
    work: impl Fn(&mut Board) -> u64,
    checksum: impl Fn(&Board, u64) -> u64,
) {
    if !name.starts_with(&plan.prefix) {
        return;
    }
    let (mut best, mut sum) = (u128::MAX, None);
    for run in 0..plan.iterations + UNTIMED {
        let mut board = black_box(prepare());
        let start = Instant::now();
        let answer = black_box(work(&mut board));
        let nanoseconds = start.elapsed().as_nanos();
        let found = checksum(&board, answer);
        assert_eq!(*sum.get_or_insert(found), found, "{name}: two runs differ");
        if run >= UNTIMED {
            best = best.min(nanoseconds);
        }
    }
    let thousandths = best * 1000 / u128::from(operations.max(1));
    println!("{name}\t{}.{:03}\t{:016x}", thousandths / 1000, thousandths % 1000, sum.unwrap_or(0));
}

struct Plan {
    count: u32,
    iterations: u64,
    prefix: String,
}

/// Reports on changes: so many players get other points, so many times each.
fn refresh(plan: &Plan, name: &str, keys: Keys, changes: u32, times: u64) {
    let operations = u64::from(changes.min(plan.count)) * times;
    let work = |board: &mut Board| {
        for place in 0..board.list.len().min(changes as usize) {
            for _ in 0..times {
                board.change(board.list[place], keys);
            }
        }
        0
    };
    report(plan, name, operations, || Board::built(plan.count, keys), work, |board, _| board.sum(keys.end));
}

/// Reports on finding: one number in eight nobody has.
fn find(plan: &Plan, keys: Keys) {
    let passes = if plan.count == 0 { 1000 } else { (1_000_000 / u64::from(plan.count)).clamp(3, 1000) };
    let pass = |board: &Board| {
        board.list.iter().fold(0u64, |sum, id| {
            let asked = keys.first(*id);
            let found = black_box(board).at(if asked % 8 == 0 { keys.end } else { asked });
            let last = found.last().copied().unwrap_or(0);
            sum.wrapping_add(found.len() as u64).wrapping_add(u64::from(last))
        })
    };
    let work = |board: &mut Board| (0..passes).fold(0, |sum, _| mix(sum, pass(board)));
    report(plan, "p_index_find", u64::from(plan.count) * passes, || Board::built(plan.count, keys), work, |_, answer| answer);
}

fn build(plan: &Plan, keys: Keys) {
    let work = |board: &mut Board| {
        board.build();
        0
    };
    report(plan, "p_index_build", u64::from(plan.count), || Board::new(plan.count, keys), work, |board, _| board.sum(keys.end));
}

fn main() {
    let words: Vec<String> = std::env::args().skip(1).collect();
    let number = |place: usize, usual: u64| words.get(place).map_or(usual, |word| word.parse().expect("a number"));
    let plan = Plan {
        count: u32::try_from(number(0, 100_000)).expect("a number of players"),
        iterations: number(1, 15),
        prefix: words.get(2).cloned().unwrap_or_default(),
    };
    refresh(&plan, "p_index_refresh", SOME, 10_000, 1);
    refresh(&plan, "p_index_refresh_own", own(plan.count), 10_000, 1);
    refresh(&plan, "p_index_refresh_same", SAME, 100, 2);
    find(&plan, SOME);
    build(&plan, SOME);
}
