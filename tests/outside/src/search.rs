//! The two engines: the tree of document 01, plain and pruned, with its steps and limits.

use crate::graph::{pair_count, pair_number, quad_pairs, Graph, MOST};
use crate::packing;
use crate::sheet::Refusal;

pub const MOST_BUDGET: u32 = 81_280_000;
pub const HIGHEST_PRICE: u16 = 10_000;
pub const FIXED: u16 = 65_535;

#[derive(Clone, Copy, PartialEq, Eq, Debug)]
pub enum Engine {
    Plain,
    Pruned,
}

#[derive(Clone, PartialEq, Eq, Debug)]
pub enum Answer {
    /// 0
    Repaired {
        price: u32,
        pairs: Vec<u16>,
        steps: u32,
    },
    /// 8
    NoRepair { steps: u32 },
    /// 9
    Stopped { steps: u32 },
    /// 1 to 7, and 10
    Refused(Refusal),
}

impl Answer {
    pub fn steps(&self) -> u32 {
        match self {
            Answer::Repaired { steps, .. }
            | Answer::NoRepair { steps }
            | Answer::Stopped { steps } => *steps,
            Answer::Refused(_) => 0,
        }
    }
}

/// What is asked of an engine: matrices row by row, the budget k, the step limit L, and the room of
/// the list lent for the repair.
#[derive(Clone, PartialEq, Eq, Debug)]
pub struct Question {
    pub n: usize,
    pub graph: Vec<u8>,
    pub prices: Vec<u16>,
    pub budget: u32,
    pub most: u32,
    pub room: usize,
}

/// Numbers 1, 2, 3 and 4, 6, in this order.
pub fn check_matrices(n: usize, graph: &[u8], prices: &[u16]) -> Result<(), Refusal> {
    if n > MOST {
        return Err(Refusal::of(1));
    }
    if graph.len() != n * n || prices.len() != n * n {
        return Err(Refusal::of(2));
    }
    for i in 0..n {
        for j in 0..n {
            let entry = graph[i * n + j];
            if entry > 1 || (i == j && entry != 0) {
                return Err(Refusal::at(3, i, j));
            }
            if entry != graph[j * n + i] {
                return Err(Refusal::at(4, i, j));
            }
        }
    }
    for i in 0..n {
        for j in 0..n {
            let price = prices[i * n + j];
            let allowed = if i == j {
                price == 0
            } else {
                (1..=HIGHEST_PRICE).contains(&price) || price == FIXED
            };
            if !allowed || price != prices[j * n + i] {
                return Err(Refusal::at(6, i, j));
            }
        }
    }
    Ok(())
}

fn check(question: &Question) -> Result<(), Refusal> {
    let n = question.n;
    check_matrices(n, &question.graph, &question.prices)?;
    if question.budget > MOST_BUDGET {
        return Err(Refusal::of(7));
    }
    if question.room < pair_count(n) {
        return Err(Refusal::of(10));
    }
    Ok(())
}

/// The pairs that are not fixed.
pub fn unfixed(n: usize, prices: &[u16]) -> Graph {
    let open: Vec<u8> = prices
        .iter()
        .map(|&price| u8::from(price != FIXED))
        .collect();
    Graph::from_matrix(n, &open)
}

/// The packing bound of a graph by itself.
pub fn bound(n: usize, graph: &[u8], prices: &[u16]) -> Result<u32, Refusal> {
    check_matrices(n, graph, prices)?;
    let free = unfixed(n, prices);
    let graph = Graph::from_matrix(n, graph);
    Ok(packing::bound(&graph, &free, prices, u32::MAX))
}

/// The better of two lists of one price.
pub fn better<'a>(first: &'a [u16], second: &'a [u16]) -> &'a [u16] {
    if second < first {
        second
    } else {
        first
    }
}

pub fn search(engine: Engine, question: &Question) -> Answer {
    if let Err(refusal) = check(question) {
        return Answer::Refused(refusal);
    }
    let n = question.n;
    let mut walk = Walk {
        engine,
        graph: Graph::from_matrix(n, &question.graph),
        free: unfixed(n, &question.prices),
        prices: &question.prices,
        most: question.most,
        path: Vec::new(),
        steps: 0,
        limit: question.budget,
        kept: None,
    };
    let ended = walk.node(0);
    let steps = walk.steps;
    match (ended, walk.kept) {
        (Err(TooMany), _) => Answer::Stopped { steps },
        (Ok(()), None) => Answer::NoRepair { steps },
        (Ok(()), Some(pairs)) => Answer::Repaired {
            price: walk.limit,
            pairs,
            steps,
        },
    }
}

/// The tree has more nodes than the step limit.
struct TooMany;

struct Walk<'a> {
    engine: Engine,
    /// The graph with the present path's pairs toggled.
    graph: Graph,
    /// The pairs neither fixed nor marked.
    free: Graph,
    prices: &'a [u16],
    most: u32,
    /// The pair numbers toggled on the way to the present node.
    path: Vec<u16>,
    steps: u32,
    limit: u32,
    /// The kept repair, ascending; its price is the limit.
    kept: Option<Vec<u16>>,
}

impl Walk<'_> {
    fn node(&mut self, price: u32) -> Result<(), TooMany> {
        if self.steps == self.most {
            return Err(TooMany);
        }
        self.steps += 1;
        let Some(quad) = self.graph.first_quad() else {
            self.keep(price);
            return Ok(());
        };
        if self.engine == Engine::Pruned {
            // A node is entered only within the limit.
            let left = self.limit - price;
            if packing::bound(&self.graph, &self.free, self.prices, left) > left {
                return Ok(());
            }
        }
        let mut marked = [false; 6];
        for (at, (i, j)) in quad_pairs(quad).into_iter().enumerate() {
            if !self.free.has(i, j) {
                continue;
            }
            self.free.toggle(i, j);
            marked[at] = true;
            let next = price + u32::from(self.prices[i * self.graph.n + j]);
            if next <= self.limit {
                self.graph.toggle(i, j);
                self.path.push(pair_number(self.graph.n, i, j));
                self.node(next)?;
                self.path.pop();
                self.graph.toggle(i, j);
            }
        }
        for (at, (i, j)) in quad_pairs(quad).into_iter().enumerate() {
            if marked[at] {
                self.free.toggle(i, j);
            }
        }
        Ok(())
    }

    fn keep(&mut self, price: u32) {
        let mut list = self.path.clone();
        list.sort();
        let is_better = match &self.kept {
            None => true,
            Some(kept) => price < self.limit || better(kept, &list) != &kept[..],
        };
        if is_better {
            self.kept = Some(list);
            self.limit = price;
        }
    }
}

#[cfg(test)]
mod tests {
    use super::*;
    use crate::{exhaustive, literal, vectors};

    /// Both engines against the rules taken word for word, steps and all.
    #[test]
    fn engines_agree_with_the_literal_search() {
        let mut ends = [0; 3];
        for index in 0..2_000 {
            let mut asked = vectors::question(41, index);
            asked.most = asked.most.min(300);
            let Question {
                n,
                graph,
                prices,
                budget,
                most,
                ..
            } = &asked;
            if check(&asked).is_err() {
                continue;
            }
            for engine in [Engine::Plain, Engine::Pruned] {
                let answer = search(engine, &asked);
                let wanted = literal::search(engine, *n, graph, prices, *budget, *most);
                assert_eq!(answer, wanted, "question {index} {engine:?}");
                match answer {
                    Answer::Repaired { .. } => ends[0] += 1,
                    Answer::NoRepair { .. } => ends[1] += 1,
                    _ => ends[2] += 1,
                }
            }
        }
        assert!(ends.iter().all(|&count| count > 300), "{ends:?}");
    }

    /// Both engines against all subsets; the pruned one never takes more steps.
    #[test]
    fn engines_agree_with_the_exhaustive_search() {
        let (mut found, mut none) = (0, 0);
        for index in 0..6_000 {
            let mut asked = vectors::question(42, index);
            if asked.n > 5 || check(&asked).is_err() {
                continue;
            }
            asked.most = u32::MAX;
            let best = exhaustive::best(asked.n, &asked.graph, &asked.prices, asked.budget);
            let plain = search(Engine::Plain, &asked);
            let pruned = search(Engine::Pruned, &asked);
            assert!(pruned.steps() <= plain.steps());
            for answer in [plain, pruned] {
                match answer {
                    Answer::Repaired { price, pairs, .. } => {
                        found += 1;
                        assert_eq!(best, Some((price, pairs)), "question {index}");
                    }
                    Answer::NoRepair { .. } => {
                        none += 1;
                        assert_eq!(best, None, "question {index}");
                    }
                    other => panic!("question {index}: {other:?}"),
                }
            }
        }
        assert!(found > 2_000 && none > 1_000, "{found} {none}");
    }

    #[test]
    fn pruned_steps_never_exceed_plain_steps() {
        let mut fewer = 0;
        for index in 0..6_000 {
            let mut asked = vectors::question(43, index);
            asked.most = 5_000;
            let plain = search(Engine::Plain, &asked);
            let pruned = search(Engine::Pruned, &asked);
            assert!(pruned.steps() <= plain.steps(), "question {index}");
            fewer += usize::from(pruned.steps() < plain.steps());
            if !matches!(plain, Answer::Stopped { .. }) {
                // Where both end they give the same repair.
                let bare = |answer: Answer| match answer {
                    Answer::Repaired { price, pairs, .. } => Some((price, pairs)),
                    _ => None,
                };
                assert_eq!(bare(plain), bare(pruned), "question {index}");
            }
        }
        assert!(fewer > 500);
    }

    /// The deepest search known goes 8,000 pairs down before it finds a repair.
    #[test]
    fn a_deep_search_has_the_stack_it_needs() {
        let n = MOST;
        let mut asked = Question {
            n,
            graph: vec![0; n * n],
            prices: vec![1; n * n],
            budget: MOST_BUDGET,
            most: 8_100,
            room: pair_count(n),
        };
        for i in 0..n {
            asked.prices[i * n + i] = 0;
            for j in 0..n {
                asked.graph[i * n + j] = u8::from(i != j && i.abs_diff(j) != 2);
            }
        }
        let work = move || search(Engine::Plain, &asked);
        let answer = crate::with_deep_stack(work).join().unwrap();
        assert_eq!(answer, Answer::Stopped { steps: 8_100 });
    }

    /// The bound never exceeds the price of any repair.
    #[test]
    fn bounds_hold() {
        for index in 0..4_000 {
            let asked = vectors::question(44, index);
            if asked.n > 5 || check(&asked).is_err() {
                continue;
            }
            let bound = bound(asked.n, &asked.graph, &asked.prices).unwrap();
            let best = exhaustive::best(asked.n, &asked.graph, &asked.prices, u32::MAX);
            if let Some((price, _)) = best {
                assert!(bound <= price, "question {index}");
            }
        }
    }
}
