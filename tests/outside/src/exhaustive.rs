//! The best repair by looking at every set of pairs, for at most five vertices.

use crate::graph::pairs;

/// Do these four different vertices carry an induced path or cycle? Told by their degrees alone.
pub fn is_path_or_cycle(four: [usize; 4], edge: &dyn Fn(usize, usize) -> bool) -> bool {
    let mut degrees = four.map(|v| four.iter().filter(|&&u| u != v && edge(u, v)).count());
    degrees.sort();
    degrees == [1, 1, 2, 2] || degrees == [2, 2, 2, 2]
}

/// The price and ascending pair numbers of the best repair within the budget.
pub fn best(n: usize, graph: &[u8], prices: &[u16], budget: u32) -> Option<(u32, Vec<u16>)> {
    assert!(n <= 5);
    let all: Vec<(usize, usize)> = pairs(n).collect();
    let mut best: Option<(u32, Vec<u16>)> = None;
    for subset in 0u32..1 << all.len() {
        let chosen: Vec<(usize, usize)> = (0..all.len())
            .filter(|&at| subset >> at & 1 == 1)
            .map(|at| all[at])
            .collect();
        if chosen.iter().any(|(i, j)| prices[i * n + j] == 65_535) {
            continue;
        }
        let price: u32 = chosen
            .iter()
            .map(|(i, j)| u32::from(prices[i * n + j]))
            .sum();
        if price > budget {
            continue;
        }
        let edge =
            |u: usize, v: usize| (graph[u * n + v] == 1) != chosen.contains(&(u.min(v), u.max(v)));
        let clean = (0..n).all(|a| {
            (a + 1..n).all(|b| {
                (b + 1..n).all(|c| (c + 1..n).all(|d| !is_path_or_cycle([a, b, c, d], &edge)))
            })
        });
        if !clean {
            continue;
        }
        let list: Vec<u16> = chosen.iter().map(|(i, j)| (i * n + j) as u16).collect();
        let candidate = (price, list);
        // A tuple is smaller by its price, then by its list at the first difference.
        best = match best {
            Some(kept) if kept <= candidate => Some(kept),
            _ => Some(candidate),
        };
    }
    best
}
