//! The best path by a search over all (K + 1)^T lists of labels.
use super::collapse;
use super::matrix::usable;

/// A list of labels and its price.
#[derive(Clone, Debug, PartialEq)]
pub struct Best {
    pub price: u32,
    pub path: Vec<u8>,
}

/// The sum of a list's costs; none if it uses a barred label.
fn price(costs: &[u32], width: usize, path: &[u8]) -> Option<u32> {
    let columns = costs.chunks(width).zip(path);
    columns
        .map(|(column, &x)| usable(column[usize::from(x)]))
        .sum()
}

/// Moves to the next list of labels 0 to K of the same length, in the order of labels; false if there is none.
fn advance(path: &mut [u8], k: u8) -> bool {
    let Some(t) = path.iter().rposition(|&x| x < k) else {
        return false;
    };
    path[t] += 1;
    path[t + 1..].fill(0);
    true
}

/// The best of all lists of labels 0 to K, tried in the order of labels: the cheapest whose collapse is a word and that uses no
/// barred label, and the first of those.
pub fn exhaustive(
    k: u8,
    costs: &[u32],
    columns: usize,
    is_word: impl Fn(&[u8]) -> bool,
) -> Option<Best> {
    let mut best: Option<Best> = None;
    let mut path = vec![0; columns];
    loop {
        if let Some(price) = price(costs, usize::from(k) + 1, &path) {
            let cheaper = best.as_ref().is_none_or(|b| price < b.price);
            if cheaper && is_word(&collapse(&path)) {
                best = Some(Best {
                    price,
                    path: path.clone(),
                });
            }
        }
        if !advance(&mut path, k) {
            return best;
        }
    }
}

/// Is another list as cheap as the best?
pub fn tied(k: u8, costs: &[u32], best: &Best, is_word: impl Fn(&[u8]) -> bool) -> bool {
    let mut path = best.path.clone();
    while advance(&mut path, k) {
        let price = price(costs, usize::from(k) + 1, &path);
        if price == Some(best.price) && is_word(&collapse(&path)) {
            return true;
        }
    }
    false
}
