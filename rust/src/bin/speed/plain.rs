//! The plain loop, the baseline: a table of costs to go, each state of each column by all its steps, and the cheapest path
//! traced forward, the lowest label first, through all equally cheap states. It takes the form and the matrix as they are,
//! unchecked, and writes no word. No label may be barred. `STATES` is 2L + 1, `WIDTH` is K + 1.

/// No way to the end; costs of 255 columns added to it do not overflow.
const NONE: u32 = 1_000_000_000;

/// Writes a label for each place of the path and returns the price, if there is a path.
#[inline(never)]
pub fn plain<const STATES: usize, const WIDTH: usize>(
    form: &[u32],
    costs: &[u32],
    path: &mut [u8],
    work: &mut [u32],
) -> Option<u32> {
    let starts = starts(form, STATES / 2);
    let columns = path.len();
    last_row(form, &mut work[columns * STATES..][..STATES]);
    table::<STATES, WIDTH>(form, &starts, costs, columns, work);
    let price = work[0];
    if price >= NONE {
        return None;
    }
    trace::<STATES, WIDTH>(form, &starts, costs, work, path);
    Some(price)
}

/// The row after the last column: a state at which a word may end costs nothing.
#[inline(always)]
fn last_row(form: &[u32], row: &mut [u32]) {
    for (s, cost) in row.iter_mut().enumerate() {
        let ends = match s.div_ceil(2) {
            0 => form[0] & 0x100 != 0,
            i => form[i] & 0x200 != 0,
        };
        *cost = if ends { 0 } else { NONE };
    }
}

/// The rows of the columns, each computed from the row after it.
#[inline(always)]
fn table<const STATES: usize, const WIDTH: usize>(
    form: &[u32],
    starts: &[usize],
    costs: &[u32],
    columns: usize,
    work: &mut [u32],
) {
    for t in (0..columns).rev() {
        let column = &costs[t * WIDTH..(t + 1) * WIDTH];
        let (here, next) = work[t * STATES..(t + 2) * STATES].split_at_mut(STATES);
        for (s, cost) in here.iter_mut().enumerate() {
            let mut least = NONE;
            steps(form, starts, STATES / 2, s, |label, to| {
                least = least.min(column[label] + next[to]);
            });
            *cost = least;
        }
    }
}

/// The path, traced through the table.
#[inline(always)]
fn trace<const STATES: usize, const WIDTH: usize>(
    form: &[u32],
    starts: &[usize],
    costs: &[u32],
    work: &[u32],
    path: &mut [u8],
) {
    let mut set = [false; STATES];
    set[0] = true;
    let mut left = work[0];
    for (t, at) in path.iter_mut().enumerate() {
        let column = &costs[t * WIDTH..(t + 1) * WIDTH];
        let next = &work[(t + 1) * STATES..(t + 2) * STATES];
        let mut label = WIDTH;
        let mut reached = [false; STATES];
        for s in (0..STATES).filter(|&s| set[s]) {
            steps(form, starts, STATES / 2, s, |x, to| {
                if x <= label && column[x] + next[to] == left {
                    if x < label {
                        label = x;
                        reached = [false; STATES];
                    }
                    reached[to] = true;
                }
            });
        }
        *at = label as u8;
        left -= column[label];
        set = reached;
    }
}

/// Where each letter's arcs start among the form's words.
#[inline(always)]
fn starts(form: &[u32], letters: usize) -> [usize; 129] {
    let mut starts = [0; 129];
    for (i, start) in starts[..letters + 2].iter_mut().enumerate() {
        let arcs = &form[1 + letters..];
        *start = 1 + letters + arcs.partition_point(|w| ((w >> 8 & 0xff) as usize) < i);
    }
    starts
}

/// The steps from a state: the label that is read, and the state that it leads to.
#[inline(always)]
fn steps(
    form: &[u32],
    starts: &[usize],
    letters: usize,
    s: usize,
    mut take: impl FnMut(usize, usize),
) {
    let label = |i: usize| (form[i] & 0xff) as usize;
    let i = s.div_ceil(2);
    if i == 0 {
        take(0, 0);
        for (n, letter) in form[1..=letters].iter().enumerate() {
            if letter & 0x100 != 0 {
                take(label(n + 1), 2 * n + 1);
            }
        }
        return;
    }
    let on = s % 2 == 1;
    take(0, 2 * i);
    if on {
        take(label(i), 2 * i - 1);
    }
    for arc in &form[starts[i]..starts[i + 1]] {
        let j = (arc & 0xff) as usize;
        if !on || label(j) != label(i) {
            take(label(j), 2 * j - 1);
        }
    }
}
