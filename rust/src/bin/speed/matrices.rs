//! The matrices: what a line's costs are like.
use crate::generator::Random;

#[derive(Clone, Copy, Debug)]
pub enum Kind {
    /// Like a network's: in each column one label or the blank is cheap, and a few more are not far from it.
    Network,
    /// Few distinct small costs: many paths are equally cheap.
    Ties,
    /// All equal.
    Equal,
    /// Close to the largest cost that passes.
    Limit,
}

impl Kind {
    pub const ALL: [Kind; 4] = [Kind::Network, Kind::Ties, Kind::Equal, Kind::Limit];

    pub fn name(self) -> &'static str {
        match self {
            Kind::Network => "network",
            Kind::Ties => "ties",
            Kind::Equal => "equal",
            Kind::Limit => "limit",
        }
    }

    pub fn named(name: &str) -> Option<Kind> {
        Kind::ALL.into_iter().find(|kind| kind.name() == name)
    }

    /// The costs of one line.
    pub fn costs(self, random: &mut Random, width: usize, columns: usize) -> Vec<u32> {
        let number = width * columns;
        match self {
            Kind::Network => (0..columns).flat_map(|_| network(random, width)).collect(),
            Kind::Ties => (0..number).map(|_| random.below(3) as u32).collect(),
            Kind::Equal => vec![7; number],
            Kind::Limit => (0..number)
                .map(|_| 1_000_000 - random.below(1_000) as u32)
                .collect(),
        }
    }
}

/// A column as a network gives it.
fn network(random: &mut Random, width: usize) -> Vec<u32> {
    let peak = match random.below(2) {
        0 => 0,
        _ => random.below(width),
    };
    let cost = |x: usize| {
        let far = if random.below(8) == 0 { 12 } else { 40 };
        match x == peak {
            true => random.below(6) as u32,
            false => (far + random.below(32)) as u32,
        }
    };
    (0..width).map(cost).collect()
}
