//! The best path of a form by a dynamic program over columns from the last to the first. Among equally cheap steps the lower
//! label wins, then the place whose own best rest comes first in the order of labels: for that, the rests of each column are
//! ranked.
use super::form::Form;
use super::matrix::{usable, Line};
use super::search::{exhaustive, Best};

/// Where a path is: on a letter, or in the blanks after one; letter 0 means none yet.
#[derive(Clone, Copy, Debug, PartialEq)]
struct Place {
    letter: u8,
    blank: bool,
}

/// The least price from a place to the end; the next label and place of the first such list by labels; and the rank of that
/// list among the lists of all places, in the order of labels.
#[derive(Clone, Copy, Debug)]
struct Rest {
    price: u32,
    step: Option<(u8, usize)>,
    rank: usize,
}

/// The rest of each place, if it has one.
type Row = Vec<Option<Rest>>;

pub fn ranked(form: &Form, costs: &[u32]) -> Option<Best> {
    let places = places(form);
    let steps: Vec<_> = places
        .iter()
        .map(|&place| steps_from(form, &places, place))
        .collect();
    let mut rows = vec![ends(form, &places)];
    for column in costs.chunks(usize::from(form.k) + 1).rev() {
        let next = rows.last().unwrap();
        rows.push(row(&steps, column, next));
    }
    let price = rows.last().unwrap()[0]?.price;
    let (mut path, mut at) = (Vec::new(), 0);
    for row in rows.iter().rev() {
        if let Some((x, to)) = row[at].unwrap().step {
            path.push(x);
            at = to;
        }
    }
    Some(Best { price, path })
}

/// The best path of a small matrix by the search over all lists of labels and by this method: the two must agree.
pub fn search_twice(form: &Form, line: &Line) -> Option<Best> {
    let best = exhaustive(form.k, &line.costs, line.columns, |w| form.accepts(w));
    let other = ranked(form, &line.costs);
    assert_eq!(best, other, "the two methods differ: {form:?} {line:?}");
    best
}

/// All places, that of no letter first.
fn places(form: &Form) -> Vec<Place> {
    let place = |letter, blank| Place { letter, blank };
    let of_letters = (1..=form.letters.len() as u8).flat_map(|i| [place(i, false), place(i, true)]);
    [place(0, true)].into_iter().chain(of_letters).collect()
}

/// After the last column: nothing is left where a path may end.
fn ends(form: &Form, places: &[Place]) -> Row {
    let end = Rest {
        price: 0,
        step: None,
        rank: 0,
    };
    let may_end = |place: &Place| match place.letter {
        0 => form.empty,
        i => form.letter(i).last,
    };
    places.iter().map(|p| may_end(p).then_some(end)).collect()
}

/// The rests at a column, by those at the next; no step takes a barred label.
fn row(steps: &[Vec<(u8, usize)>], column: &[u32], next: &Row) -> Row {
    let offer = |&(x, to): &(u8, usize)| {
        let cost = usable(column[usize::from(x)])?;
        let rest = next[to]?;
        Some((cost + rest.price, x, rest.rank, to))
    };
    let found: Vec<_> = steps
        .iter()
        .map(|from| from.iter().filter_map(offer).min())
        .collect();
    let mut order: Vec<(u8, usize)> = found.iter().flatten().map(|f| (f.1, f.2)).collect();
    order.sort_unstable();
    order.dedup();
    let rest = |(price, x, rank, to)| Rest {
        price,
        step: Some((x, to)),
        rank: order.binary_search(&(x, rank)).unwrap(),
    };
    found.into_iter().map(|f| f.map(rest)).collect()
}

/// The labels with which a path may continue from a place, and where they lead.
fn steps_from(form: &Form, places: &[Place], from: Place) -> Vec<(u8, usize)> {
    let find = |letter, blank| {
        places
            .iter()
            .position(|&p| p == Place { letter, blank })
            .unwrap()
    };
    let mut steps = vec![(0, find(from.letter, true))];
    for (n, to) in form.letters.iter().enumerate() {
        let j = n as u8 + 1;
        let on = !from.blank && from.letter == j;
        let arc = match from.letter {
            0 => to.first,
            i => {
                let parted = from.blank || form.letter(i).label != to.label;
                parted && form.arcs.contains(&(i, j))
            }
        };
        if on || arc {
            steps.push((to.label, find(j, false)));
        }
    }
    steps
}
