//! What `crates/rocks` plays where it is told how many rocks and turns, in plain Rust: a vector of options for each component type, and no events.
//!
//!     rustc --edition 2021 -C opt-level=3 -o game bench/twin/game.rs && ./game 10000 1000

use std::env;

const SIZE: f64 = 1000.0;

/// Numbers that look drawn, as the game has them.
struct Drawn {
    state: u64,
}

impl Drawn {
    fn below(&mut self, limit: f64) -> f64 {
        self.state = self
            .state
            .wrapping_mul(6364136223846793005)
            .wrapping_add(1442695040888963407);
        let drawn = ((self.state >> 40) & 0xff_ffff) as u32;
        f64::from(drawn) * limit / f64::from(1u32 << 24)
    }
}

#[derive(Clone, Copy)]
struct Pair(f64, f64);

/// What stands at each index; one whose place is free has nothing.
#[derive(Default)]
struct Space {
    positions: Vec<Option<Pair>>,
    velocities: Vec<Option<Pair>>,
    scores: Vec<Option<u32>>,
    names: Vec<Option<String>>,
    free: Vec<usize>,
}

impl Space {
    fn bear(&mut self, position: Pair, velocity: Pair) -> usize {
        let index = self.free.pop().unwrap_or(self.positions.len());
        if index == self.positions.len() {
            self.positions.push(None);
            self.velocities.push(None);
            self.scores.push(None);
            self.names.push(None);
        }
        self.positions[index] = Some(position);
        self.velocities[index] = Some(velocity);
        index
    }

    fn burst(&mut self, index: usize) {
        if self.positions[index].take().is_some() {
            self.velocities[index] = None;
            self.free.push(index);
        }
    }

    fn step(&mut self) {
        for (position, velocity) in self.positions.iter_mut().zip(&self.velocities) {
            if let (Some(at), Some(way)) = (position, velocity) {
                *at = Pair(wrapped(at.0 + way.0), wrapped(at.1 + way.1));
            }
        }
    }

    /// The pairs that are nearer than a distance, each with where its members are.
    fn pairs(&self, distance: f64) -> Vec<((usize, Pair), (usize, Pair))> {
        let mut list: Vec<(usize, Pair)> = Vec::new();
        for (index, position) in self.positions.iter().enumerate() {
            list.extend(position.map(|at| (index, at)));
        }
        list.sort_by(|one, other| one.1 .0.total_cmp(&other.1 .0));
        let mut found = Vec::new();
        for (i, one) in list.iter().enumerate() {
            for other in &list[i + 1..] {
                let (x, y) = (other.1 .0 - one.1 .0, other.1 .1 - one.1 .1);
                if x > distance {
                    break;
                }
                if x * x + y * y < distance * distance {
                    found.push((*one, *other));
                }
            }
        }
        found
    }
}

fn wrapped(x: f64) -> f64 {
    let x = if x < 0.0 { x + SIZE } else { x };
    if x > SIZE {
        x - SIZE
    } else {
        x
    }
}

fn main() {
    let words: Vec<u32> = env::args().skip(1).map(|word| word.parse().unwrap()).collect();
    let (rocks, turns) = (words[0], words[1]);
    let (mut drawn, mut space) = (Drawn { state: 1 }, Space::default());
    for _ in 0..rocks {
        let at = Pair(drawn.below(SIZE), drawn.below(SIZE));
        space.bear(at, Pair(drawn.below(2.0) - 1.0, drawn.below(2.0) - 1.0));
    }
    for _ in 0..rocks / 100 {
        let at = Pair(drawn.below(SIZE), drawn.below(SIZE));
        let ship = space.bear(at, Pair(0.5, 0.25));
        space.scores[ship] = Some(0);
        space.names[ship] = Some("ship".to_string());
    }
    let (mut near, mut jobs, mut events) = (0, 0, (rocks / 100) as usize);
    for _ in 0..turns {
        space.step();
        let found = space.pairs(3.0);
        near += found.len();
        let mut met = Vec::new();
        for (one, other) in found {
            match (space.scores[one.0], space.scores[other.0]) {
                (Some(_), None) => met.push((one.0, other)),
                (None, Some(_)) => met.push((other.0, one)),
                _ => {}
            }
        }
        for (ship, rock) in met {
            space.burst(rock.0);
            space.scores[ship] = space.scores[ship].map(|points| points + 1);
            space.bear(rock.1, Pair(0.0, 2.0));
            jobs += 4;
            events += 1;
        }
    }
    let living = space.positions.iter().flatten().count();
    println!("{near} near, {jobs} jobs, {events} events, {living} live");
}
