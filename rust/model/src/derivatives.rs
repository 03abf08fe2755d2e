//! The best path of an expression without letters or arcs: by what may remain of its tree after the beginning of a word. For one
//! beginning this is one state, so a path leads to one node only, and the first of the cheapest paths by labels is found by
//! taking the lowest label at each column.
use super::expression::Tree;
use super::matrix::usable;
use super::search::Best;
use std::collections::{BTreeMap, BTreeSet};
use std::rc::Rc;

/// Parts still to come, one after another.
type Remainder = Vec<Rc<Tree>>;

/// All that may remain.
type State = BTreeSet<Remainder>;

/// The states of an expression by number, the whole expression first: may the word end, and where do labels lead? A label leads
/// where its character does.
pub struct Machine {
    ends: Vec<bool>,
    steps: Vec<Vec<(u8, usize)>>,
}

impl Machine {
    /// None if there are more states than `most`.
    pub fn new(tree: &Rc<Tree>, alphabet: &[u8], most: usize) -> Option<Machine> {
        let mut states = vec![State::from([vec![tree.clone()]])];
        let mut numbers = BTreeMap::from([(states[0].clone(), 0)]);
        let mut machine = Machine {
            ends: Vec::new(),
            steps: Vec::new(),
        };
        while machine.steps.len() < states.len() {
            let here = states[machine.steps.len()].clone();
            let mut steps = Vec::new();
            for (x, &c) in (1..).zip(alphabet) {
                let next: State = here.iter().flat_map(|rest| after_all(rest, c)).collect();
                if !next.is_empty() {
                    let number = *numbers.entry(next.clone()).or_insert(states.len());
                    if number == states.len() {
                        states.push(next);
                    }
                    steps.push((x, number));
                }
            }
            if states.len() > most {
                return None;
            }
            machine.ends.push(here.iter().any(|rest| empty_all(rest)));
            machine.steps.push(steps);
        }
        Some(machine)
    }

    /// Is the word of labels one of the expression's?
    pub fn is_word(&self, word: &[u8]) -> bool {
        let step = |at: usize, x: &u8| {
            let found = self.steps[at].iter().find(|step| step.0 == *x);
            found.map(|step| step.1)
        };
        let end = word.iter().try_fold(0, step);
        end.is_some_and(|at| self.ends[at])
    }

    /// The best path, by the least price from each node to the end.
    pub fn best(&self, costs: &[u32], width: usize) -> Option<Best> {
        let nodes = Nodes::new(self);
        let ends = nodes.list.iter().map(|node| self.ends[node.0].then_some(0));
        let mut rows: Vec<Vec<Option<u32>>> = vec![ends.collect()];
        for column in costs.chunks(width).rev() {
            let next = rows.last().unwrap();
            let least = |steps: &Vec<_>| steps.iter().filter_map(|s| total(column, next, s)).min();
            rows.push(nodes.steps.iter().map(least).collect());
        }
        rows.reverse();
        let price = rows[0][0]?;
        let mut path = Vec::new();
        let (mut at, mut left) = (0, price);
        for (column, next) in costs.chunks(width).zip(&rows[1..]) {
            let cheapest = |step: &&_| total(column, next, step) == Some(left);
            let (x, to) = *nodes.steps[at].iter().find(cheapest).unwrap();
            path.push(x);
            left -= column[usize::from(x)];
            at = to;
        }
        Some(Best { price, path })
    }
}

/// What a step costs, with the least price from there; none if its label is barred.
fn total(column: &[u32], next: &[Option<u32>], &(x, to): &(u8, usize)) -> Option<u32> {
    Some(usable(column[usize::from(x)])? + next[to]?)
}

/// The nodes of paths: a state and the path's last label, at first 0; and the steps from each node, by ascending label.
struct Nodes {
    list: Vec<(usize, u8)>,
    steps: Vec<Vec<(u8, usize)>>,
}

impl Nodes {
    fn new(machine: &Machine) -> Nodes {
        let mut list = vec![(0, 0)];
        let mut numbers = BTreeMap::from([((0, 0), 0)]);
        let mut steps = Vec::new();
        while steps.len() < list.len() {
            let (state, last) = list[steps.len()];
            let mut next = BTreeMap::from([(0, state), (last, state)]);
            for &(x, to) in &machine.steps[state] {
                next.entry(x).or_insert(to);
            }
            let mut number = |(x, state)| {
                let number = *numbers.entry((state, x)).or_insert(list.len());
                if number == list.len() {
                    list.push((state, x));
                }
                (x, number)
            };
            steps.push(next.into_iter().map(&mut number).collect());
        }
        Nodes { list, steps }
    }
}

/// Is the empty word one of the expression's?
fn empty(tree: &Tree) -> bool {
    match tree {
        Tree::Set(_) => false,
        Tree::Join(parts) => empty_all(parts),
        Tree::Either(branches) => branches.iter().any(|branch| empty(branch)),
        Tree::Repeat(part, least, _) => *least == 0 || empty(part),
    }
}

fn empty_all(parts: &[Rc<Tree>]) -> bool {
    parts.iter().all(|part| empty(part))
}

/// What may remain of an expression after the character c.
fn after(tree: &Tree, c: u8) -> State {
    match tree {
        Tree::Set(characters) if characters.contains(&c) => State::from([Vec::new()]),
        Tree::Set(_) => State::new(),
        Tree::Join(parts) => after_all(parts, c),
        Tree::Either(branches) => branches.iter().flat_map(|b| after(b, c)).collect(),
        Tree::Repeat(part, least, most) => {
            let left = most.map(|m| m - 1);
            let again = Rc::new(Tree::Repeat(part.clone(), least.saturating_sub(1), left));
            let more = (left != Some(0)).then_some(again);
            let with = |rest: Remainder| rest.into_iter().chain(more.clone()).collect();
            after(part, c).into_iter().map(with).collect()
        }
    }
}

/// The same for parts joined: c is the first character of some part before which all may be empty.
fn after_all(parts: &[Rc<Tree>], c: u8) -> State {
    let mut all = State::new();
    for (n, part) in parts.iter().enumerate() {
        let with = |rest: Remainder| rest.into_iter().chain(parts[n + 1..].to_vec()).collect();
        all.extend(after(part, c).into_iter().map(with));
        if !empty(part) {
            break;
        }
    }
    all
}
