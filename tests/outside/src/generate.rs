//! Sheets to try: a list of named ones, then any number of random ones.

use crate::graph::{pair_count, pairs, Graph, MOST};
use crate::random::Random;
use crate::report::{report, report_within, Report};
use crate::sheet::{self, unchecked, Sheet, MOST_LENGTH, MOST_NOTES, SCALE};
use std::collections::{BTreeMap, VecDeque};

/// The price of a pair that no good repair changes, with threshold 0.
const DEAR: i16 = SCALE;

/// A sheet, good or damaged, and what `report` must print for it.
pub struct Case {
    pub name: String,
    pub bytes: Vec<u8>,
    pub report: Report,
}

/// The first `count` cases of a seed. Each is made only when it is asked for.
pub fn cases(seed: u64, count: usize) -> impl Iterator<Item = Case> {
    let named = named().into_iter().map(|(name, bytes)| Case {
        report: report(&bytes),
        name,
        bytes,
    });
    let random = (0..).map(move |index| random_case(&mut Random::nth(seed, index)));
    named.chain(random).take(count)
}

// Graphs and sheets with a known shape.

/// A random clean graph: the closure of a random forest, vertices in random order. `roots` is the
/// chance, out of 8, that a vertex starts a tree, `deep` that it hangs on the one made last.
fn clean_graph(random: &mut Random, n: usize, roots: usize, deep: usize) -> Graph {
    let mut names: Vec<usize> = (0..n).collect();
    random.shuffle(&mut names);
    let mut parents: Vec<Option<usize>> = Vec::new();
    let mut graph = Graph::empty(n);
    for v in 0..n {
        let parent = if v == 0 || random.chance(roots, 8) {
            None
        } else if random.chance(deep, 8) {
            Some(v - 1)
        } else {
            Some(random.below(v))
        };
        parents.push(parent);
        let mut up = parent;
        while let Some(u) = up {
            graph.toggle(names[u], names[v]);
            up = parents[u];
        }
    }
    graph
}

/// The sheet of a graph and its prices.
fn sheet_of(graph: &Graph, threshold: i16, mut price: impl FnMut((usize, usize)) -> i16) -> Sheet {
    let score = |(i, j): (usize, usize)| {
        if graph.has(i, j) {
            threshold + price((i, j))
        } else {
            threshold - price((i, j))
        }
    };
    Sheet {
        notes: Vec::new(),
        n: graph.n,
        threshold,
        scores: pairs(graph.n).map(score).collect(),
    }
}

fn bytes_of(sheet: &Sheet) -> Vec<u8> {
    sheet::write(sheet).expect("a good sheet")
}

fn plain_sheet(n: usize, threshold: i16, scores: &[i16]) -> Vec<u8> {
    bytes_of(&Sheet {
        notes: Vec::new(),
        n,
        threshold,
        scores: scores.to_vec(),
    })
}

/// A sheet whose pruned search takes exactly `steps` steps.
///
/// It is a row of separate paths a-b-c-d. In each, the first `ways` of the five single changes that
/// clean it (ab, ac, bc, bd, cd) cost 1, and all else is dear. The first leaf costs 1 for every path,
/// and then nothing dear is in reach and nothing is pruned. So a path in front of a row with tree T
/// makes a tree of ways x T + 1 nodes; and of one more if ad, which cleans nothing, costs 1 as well.
pub fn exact_steps(steps: usize) -> Sheet {
    let row = paths_for(steps);
    let mut graph = Graph::empty(4 * row.len());
    let mut cheap = Vec::new();
    for (at, &(ways, more)) in row.iter().enumerate() {
        let [a, b, c, d] = [0, 1, 2, 3].map(|v| 4 * at + v);
        for (i, j) in [(a, b), (b, c), (c, d)] {
            graph.toggle(i, j);
        }
        cheap.extend(&[(a, b), (a, c), (b, c), (b, d), (c, d)][..ways]);
        if more {
            cheap.push((a, d));
        }
    }
    sheet_of(
        &graph,
        0,
        |pair| if cheap.contains(&pair) { 1 } else { DEAR },
    )
}

/// How many ways of a path cost 1, and whether ad does.
type PathKind = (usize, bool);

/// The shortest row of paths, front first, that makes a tree of this many nodes.
fn paths_for(steps: usize) -> Vec<PathKind> {
    assert!(steps >= 1);
    // From the whole tree down to the single node: the path that stands in front of each tree, and
    // the tree that both make.
    let mut front: BTreeMap<usize, Option<(usize, PathKind)>> = BTreeMap::new();
    front.insert(steps, None);
    let mut queue = VecDeque::from([steps]);
    while let Some(tree) = queue.pop_front() {
        if tree == 1 {
            break;
        }
        for ways in 1..=5 {
            for more in [false, true] {
                let own = 1 + usize::from(more);
                if tree > own && (tree - own) % ways == 0 {
                    let rest = (tree - own) / ways;
                    front.entry(rest).or_insert_with(|| {
                        queue.push_back(rest);
                        Some((tree, (ways, more)))
                    });
                }
            }
        }
    }
    let mut row = Vec::new();
    let mut tree = 1;
    while let Some((whole, path)) = front[&tree] {
        row.insert(0, path);
        tree = whole;
    }
    row
}

/// A sheet that is repaired by cutting every edge between its first `outer` vertices and a clique of
/// `inner`, one by one and without a side way: outer x inner changes in one step more.
///
/// Behind the clique stands a vertex joined to all of it, and behind that one joined to it alone.
pub fn many_cuts(outer: usize, inner: usize) -> Sheet {
    let n = outer + inner + 2;
    let hub = n - 2;
    let mut graph = Graph::empty(n);
    for (i, j) in pairs(n) {
        let noise = i < outer && (outer..hub).contains(&j);
        let kept = i >= outer && j <= hub || i == hub;
        if noise || kept {
            graph.toggle(i, j);
        }
    }
    let noise = |(i, j): (usize, usize)| i < outer && (outer..hub).contains(&j);
    sheet_of(&graph, 0, |pair| if noise(pair) { 1 } else { DEAR })
}

fn random_graph(random: &mut Random, n: usize, edges: usize, of: usize) -> Graph {
    let mut graph = Graph::empty(n);
    for (i, j) in pairs(n) {
        if random.chance(edges, of) {
            graph.toggle(i, j);
        }
    }
    graph
}

// The named ones.

type Named = Vec<(String, Vec<u8>)>;

pub fn named() -> Named {
    let mut list = Named::new();
    good(&mut list);
    lengths(&mut list);
    too_many_vertices(&mut list);
    off_the_scale(&mut list);
    long_searches(&mut list);
    list
}

fn good(list: &mut Named) {
    let mut add = |name: &str, bytes: Vec<u8>| list.push((name.to_string(), bytes));
    add(
        "the case of the rules",
        plain_sheet(4, 0, &[1, -1, -1, 1, -1, 1]),
    );
    add("the example sheet", unchecked(b"ab", &[300], 2, 2, 100));
    for n in 0..4 {
        for (threshold, score) in [(0, 1), (0, 0), (5000, 5000), (-5000, 5000), (5000, -5000)] {
            let scores = vec![score; pair_count(n)];
            add("few vertices", plain_sheet(n, threshold, &scores));
        }
    }
    for n in [0usize, 1, 2, 127, 128] {
        for p in [0, 1, 2, 7, 8, 255, 256, MOST_NOTES - 1, MOST_NOTES] {
            let scores = vec![1; pair_count(n)];
            let notes: Vec<u8> = (0..p).map(|at| (at * 7 + at / 256) as u8).collect();
            add(
                "a clique with notes",
                unchecked(&notes, &scores, p as u32, n as u16, 0),
            );
        }
    }
    for scores in [
        [1, 0, 0, 1, 0, 1],
        [1, 0, 1, 1, 0, 1],
        [5, -3, -1, 4, -3, 5],
        [-1, 1, 0, -1, 1, 1],
        [1, 1, -1, 1, -1, 1],
        [100, 100, 100, 100, 100, 100],
    ] {
        add("four vertices", plain_sheet(4, 0, &scores));
    }
    let mut two = Graph::empty(8);
    for (i, j) in [(0, 1), (1, 2), (2, 3), (4, 5), (5, 6), (6, 7)] {
        two.toggle(i, j);
    }
    add("two paths", bytes_of(&sheet_of(&two, 0, |_| 1)));
    add("no edge at all", plain_sheet(128, 0, &[0; 8128]));
    add("farthest below", plain_sheet(128, 5000, &[-5000; 8128]));
    add("farthest above", plain_sheet(128, -5000, &[5000; 8128]));
    let mut star = Graph::empty(128);
    for leaf in 0..127 {
        star.toggle(leaf, 127);
    }
    add("a star", bytes_of(&sheet_of(&star, -17, |_| 3)));
    for steps in 1..=24 {
        let sheet = exact_steps(steps);
        add(&format!("{steps} steps"), bytes_of(&sheet));
    }
    // Notes that are themselves sheets, and trailers.
    let inner = plain_sheet(4, 0, &[1, -1, -1, 1, -1, 1]);
    let p = inner.len() as u32;
    add(
        "a sheet in the notes",
        unchecked(&inner, &[1, 1, 1], p, 3, 0),
    );
}

/// Number 11: every way in which a length can be wrong.
fn lengths(list: &mut Named) {
    let mut add = |name: &str, bytes: Vec<u8>| list.push((name.to_string(), bytes));
    let rules = plain_sheet(4, 0, &[1, -1, -1, 1, -1, 1]);
    let longest = unchecked(&[0x5A; MOST_NOTES], &[1; 8128], MOST_NOTES as u32, 128, 0);
    assert_eq!(longest.len(), MOST_LENGTH);
    for length in 0..8 {
        add("shorter than 8", vec![0; length]);
        add("shorter than 8", vec![0xFF; length]);
        add(
            "a sheet's end alone",
            rules[rules.len() - length..].to_vec(),
        );
    }
    for cut in 1..=rules.len() {
        add("the front is missing", rules[cut..].to_vec());
        add("the back is missing", rules[..rules.len() - cut].to_vec());
    }
    for sheet in [&rules, &longest] {
        for more in [1, 2, 8, 20_000] {
            let extra = vec![0; more];
            add("zeros in front", [&extra[..], sheet].concat());
            add("zeros behind", [&sheet[..], &extra].concat());
        }
        let mut twice = sheet.to_vec();
        twice.extend_from_slice(sheet);
        add("two sheets", twice);
    }
    for (n, p) in [
        (4u16, 1u32),
        (4, 2),
        (3, 0),
        (5, 0),
        (0, 0),
        (1, 0),
        (128, 0),
    ] {
        add(
            "n or p does not fit the length",
            unchecked(b"", &[1; 6], p, n, 0),
        );
    }
    for n in [0u16, 1, 2, 3, 100, 127, 128] {
        let pairs = pair_count(usize::from(n));
        for p in [MOST_NOTES + 1, MOST_NOTES + 2, 33_000] {
            add(
                "too many notes",
                unchecked(&vec![1; p], &vec![1; pairs], p as u32, n, 0),
            );
        }
        // p as it would be if a sum were carried in 16 or 32 bits.
        for p in [1 << 16, 1 << 31, 3 << 30, u32::MAX, u32::MAX - 7] {
            add("p far too large", unchecked(b"", &vec![1; pairs], p, n, 0));
        }
        if pairs == 0 {
            continue;
        }
        let short = (pairs as u32 * 2).wrapping_neg();
        add("p turns the length over", unchecked(b"", &[], short, n, 0));
        add(
            "p turns the length over",
            unchecked(b"", &[], short.wrapping_sub(8), n, 0),
        );
    }
    for length in [MOST_LENGTH + 1, 49_152, 65_535, 65_536, 65_544, 200_000] {
        add("too long", vec![0; length]);
        let mut bytes = unchecked(b"", &[], 0, 129, 0);
        bytes.splice(0..0, vec![0; length - 8]);
        add("too long with too many vertices", bytes);
        let mut bytes = longest.clone();
        bytes.extend_from_slice(&longest[..length.min(2 * MOST_LENGTH) - MOST_LENGTH]);
        add("a sheet and more", bytes);
    }
}

/// Number 1, which stands before all but the shortest sheets.
fn too_many_vertices(list: &mut Named) {
    let mut add = |bytes| list.push(("too many vertices".to_string(), bytes));
    for n in [129u16, 130, 255, 256, 257, 384, 32_767, 32_768, 65_535] {
        add(unchecked(b"", &[], 0, n, 0));
        add(unchecked(b"abc", &[9_000], u32::MAX, n, 9_000));
        add(unchecked(&[0; 500], &[], 500, n, i16::MIN));
    }
    for n in [129usize, 130, 200] {
        let scores = vec![1; pair_count(n)];
        add(unchecked(b"", &scores, 0, n as u16, 0));
        add(unchecked(b"x", &scores, 1, n as u16, 5_001));
    }
}

/// Number 5: the threshold, and every place of small sheets.
fn off_the_scale(list: &mut Named) {
    let mut add = |name: &str, bytes: Vec<u8>| list.push((name.to_string(), bytes));
    let off = [5_001, -5_001, i16::MAX, i16::MIN, 5_120, -5_376];
    for n in [0usize, 1, 2, 5, 128] {
        let count = pair_count(n);
        for (at, threshold) in off.into_iter().enumerate() {
            let mut scores = vec![1; count];
            add(
                "threshold off",
                unchecked(b"n", &scores, 1, n as u16, threshold),
            );
            if let Some(score) = scores.last_mut() {
                *score = off[(at + 1) % 6];
                add(
                    "threshold and score off",
                    unchecked(b"n", &scores, 1, n as u16, threshold),
                );
            }
        }
    }
    for n in 2..=8 {
        let count = pair_count(n);
        for at in 0..count {
            let mut scores = vec![-7; count];
            scores[at] = off[at % 6];
            add("score off", unchecked(b"", &scores, 0, n as u16, -9));
            if at % 3 == 0 {
                scores[at..].fill(off[at % 5]);
                add("scores off", unchecked(b"odd", &scores, 3, n as u16, 9));
            }
        }
    }
    for at in [0, 1, 126, 127, 128, 4_000, 8_125, 8_126, 8_127] {
        let mut scores = vec![5_000; 8_128];
        scores[at] = off[at % 6];
        add("score off", unchecked(b"", &scores, 0, 128, -5_000));
        add(
            "score off and a byte missing",
            unchecked(b"", &scores, 1, 128, -5_000),
        );
    }
}

/// The step limit's two sides, a search far beyond it, and thousands of changes.
fn long_searches(list: &mut Named) {
    let mut add = |name: &str, sheet: &Sheet| list.push((name.to_string(), bytes_of(sheet)));
    add("1,000,000 steps", &exact_steps(1_000_000));
    add("1,000,001 steps", &exact_steps(1_000_001));
    let random = random_graph(&mut Random::new(3), 17, 1, 2);
    add("millions of steps", &sheet_of(&random, 0, |_| 1));
    add("3,968 cuts", &many_cuts(62, 64));
    let mut gaps = Graph::empty(12);
    for (i, j) in pairs(12).filter(|(i, j)| j - i != 2) {
        gaps.toggle(i, j);
    }
    add("all but every second", &sheet_of(&gaps, 0, |_| 1));
}

// The random ones.

/// The most steps that a random sheet of n vertices may take: its search stays short.
fn most_steps(n: usize) -> u32 {
    (300_000_000 / n.max(1).pow(3)).min(20_000) as u32
}

fn random_case(random: &mut Random) -> Case {
    for _ in 0..8 {
        let (name, bytes) = candidate(random);
        let most = sheet::read(&bytes).map_or(0, |sheet| most_steps(sheet.n));
        let report = report_within(&bytes, most);
        if !report.stopped {
            return Case {
                name: name.to_string(),
                bytes,
                report,
            };
        }
    }
    let bytes = bytes_of(&clean(random));
    Case {
        name: "clean".to_string(),
        report: report(&bytes),
        bytes,
    }
}

fn candidate(random: &mut Random) -> (&'static str, Vec<u8>) {
    let (name, mut sheet) = match random.below(16) {
        0 | 1 => ("any scores", any_scores(random)),
        2 | 3 => ("close scores", close_scores(random)),
        4 | 5 => ("ties", ties(random)),
        6..=8 => ("near-clean", near_clean(random, 5, 24)),
        9 => ("near-clean, large", near_clean(random, 25, MOST)),
        10 => ("clean", clean(random)),
        11 => ("a number of steps", exact_steps(random.below(4_000) + 1)),
        _ => return ("damaged", damaged(random)),
    };
    sheet.notes = notes(random);
    (name, bytes_of(&sheet))
}

fn notes(random: &mut Random) -> Vec<u8> {
    let count = match random.below(32) {
        0 => MOST_NOTES,
        1 => random.below(MOST_NOTES + 1),
        2..=7 => random.below(600),
        8..=15 => random.below(10),
        _ => 0,
    };
    random.bytes(count)
}

fn any_scores(random: &mut Random) -> Sheet {
    let n = random.below(10);
    let threshold = random.range(-5_000, 5_000) as i16;
    let scores = pairs(n).map(|_| random.range(-5_000, 5_000) as i16);
    Sheet {
        notes: Vec::new(),
        n,
        threshold,
        scores: scores.collect(),
    }
}

fn close_scores(random: &mut Random) -> Sheet {
    let n = random.below(10);
    let width = random.pick(&[1, 2, 3, 10, 100]);
    let threshold = random.range(-4_900, 4_900);
    let scores = pairs(n).map(|_| (threshold + random.range(-width, width)) as i16);
    Sheet {
        notes: Vec::new(),
        n,
        threshold: threshold as i16,
        scores: scores.collect(),
    }
}

fn ties(random: &mut Random) -> Sheet {
    let n = 4 + random.below(6);
    let edges = 2 + random.below(5);
    let graph = random_graph(random, n, edges, 8);
    let price = random.pick(&[1, 1, 1, 2, 7, 5_000]);
    let other = random.pick(&[0, 0, 0, 1, 2]);
    let mut sheet = sheet_of(&graph, 0, |_| price);
    for score in &mut sheet.scores {
        if *score == -1 && random.chance(1, 2) {
            // No edge, price 1, said the other way.
            *score = 0;
        } else if random.chance(other, 8) && price < 5_000 {
            *score += score.signum();
        }
    }
    sheet
}

fn near_clean(random: &mut Random, least: i64, most: usize) -> Sheet {
    let n = random.range(least, most as i64) as usize;
    let (roots, deep) = (random.below(5), random.below(6));
    let mut graph = clean_graph(random, n, roots, deep);
    let all: Vec<(usize, usize)> = pairs(n).collect();
    let changes = 1 + random.below(if n < 25 { 6 } else { 3 });
    let mut noise = Vec::new();
    for _ in 0..changes {
        let pair = random.pick(&all);
        if !noise.contains(&pair) {
            graph.toggle(pair.0, pair.1);
            noise.push(pair);
        }
    }
    let threshold = random.range(-1_000, 1_000) as i16;
    let (noise_most, low, high) = random.pick(&[
        (100, 500, 4_000),
        (1, 1, 1),
        (1, 2, 2),
        (3, 1, 6),
        (4_000, 4_000, 4_000),
    ]);
    sheet_of(&graph, threshold, |pair| {
        if noise.contains(&pair) {
            random.range(1, noise_most) as i16
        } else {
            random.range(low, high) as i16
        }
    })
}

fn clean(random: &mut Random) -> Sheet {
    let n = random.below(MOST + 1);
    let (roots, deep) = (random.below(7), random.below(8));
    let graph = clean_graph(random, n, roots, deep);
    sheet_of(&graph, random.range(-100, 100) as i16, |_| {
        random.range(1, 4_900) as i16
    })
}

/// A small or large sheet with one or two things wrong, or bytes without any sense.
fn damaged(random: &mut Random) -> Vec<u8> {
    let n = if random.chance(1, 4) {
        random.below(MOST + 1)
    } else {
        random.below(12)
    };
    let mut scores: Vec<i16> = pairs(n)
        .map(|_| random.range(-5_000, 5_000) as i16)
        .collect();
    let notes = notes(random);
    let mut p = notes.len() as u32;
    let mut threshold = random.range(-5_000, 5_000) as i16;
    let mut named = n as u16;
    let mut cut = None;
    for _ in 0..1 + random.below(2) {
        match random.below(8) {
            0..=2 if n > 1 => {
                let at = random.below(scores.len());
                let far = random.range(5_001, 32_767) as i16;
                scores[at] = random.pick(&[5_001, -5_001, far, -far]);
            }
            3 => threshold = random.pick(&[5_001, -5_001, i16::MAX, i16::MIN]),
            4 => p = p.wrapping_add(random.range(-3, 3) as u32),
            5 => p = random.next() as u32,
            6 => named = [named + 1, named.wrapping_sub(1), random.next() as u16][random.below(3)],
            _ => cut = Some(random.next() as usize),
        }
    }
    let mut bytes = unchecked(&notes, &scores, p, named, threshold);
    if let Some(at) = cut {
        let at = at % bytes.len();
        match random.below(4) {
            0 => drop(bytes.remove(at)),
            1 => bytes.insert(at, random.next() as u8),
            2 => bytes.truncate(at),
            _ => bytes = random.bytes(at.min(40)),
        }
    }
    bytes
}

#[cfg(test)]
mod tests {
    use super::*;
    use crate::search::{search, Answer, Engine, Question, MOST_BUDGET};
    use crate::with_deep_stack;

    fn answer(engine: Engine, sheet: &Sheet) -> Answer {
        let (graph, prices) = sheet::matrices(sheet);
        let question = Question {
            n: sheet.n,
            graph,
            prices,
            budget: MOST_BUDGET,
            most: u32::MAX,
            room: sheet.scores.len(),
        };
        search(engine, &question)
    }

    #[test]
    fn clean_graphs_are_clean() {
        let mut random = Random::new(21);
        for _ in 0..300 {
            let n = random.below(40);
            let (roots, deep) = (random.below(9), random.below(9));
            assert_eq!(clean_graph(&mut random, n, roots, deep).first_quad(), None);
        }
    }

    #[test]
    fn exact_steps_are_exact() {
        for steps in (1..300).chain([9_999, 10_000]) {
            let answer = answer(Engine::Pruned, &exact_steps(steps));
            assert_eq!(answer.steps() as usize, steps);
        }
    }

    /// The step limit's two sides.
    #[test]
    fn a_million_steps_and_one_more() {
        let text = |steps| report(&bytes_of(&exact_steps(steps))).text;
        let done = text(1_000_000);
        assert!(done.contains("\nanswer 0 cost 10 edits 10 steps 1000000\ncut 0 1\n"));
        assert_eq!(text(1_000_001), "answer 9 steps 1000000\n");
    }

    #[test]
    fn many_cuts_are_many() {
        let work = || {
            for (outer, inner) in [(1, 1), (3, 4), (20, 30)] {
                let sheet = many_cuts(outer, inner);
                let Answer::Repaired {
                    price,
                    pairs,
                    steps,
                } = answer(Engine::Pruned, &sheet)
                else {
                    panic!("no repair");
                };
                assert_eq!(price as usize, outer * inner);
                assert_eq!(pairs.len(), outer * inner);
                assert_eq!(steps as usize, outer * inner + 1);
            }
        };
        with_deep_stack(work).join().unwrap();
    }

    #[test]
    fn the_same_seed_makes_the_same_sheets() {
        for index in 0..60 {
            let make = |seed| random_case(&mut Random::nth(seed, index)).bytes;
            assert_eq!(make(5), make(5));
        }
        let all = |seed| -> Vec<Vec<u8>> {
            (0..60)
                .map(|index| random_case(&mut Random::nth(seed, index)).bytes)
                .collect()
        };
        assert_ne!(all(5), all(6));
    }

    /// Every number that a sheet can meet is met, and 5 at every place of up to eight vertices.
    #[test]
    fn every_refusal_is_among_the_named() {
        let refusals: Vec<(String, Vec<u8>)> = named()
            .into_iter()
            .filter(|(_, bytes)| sheet::read(bytes).is_err() || bytes.len() > MOST_LENGTH)
            .map(|(_, bytes)| (report(&bytes).text, bytes))
            .collect();
        let met = |line: &str| refusals.iter().any(|(text, _)| text.as_str() == line);
        assert!(met("answer 1 place 0 0\n"));
        assert!(met("answer 5 place 0 0\n"));
        assert!(met("answer 11 place 0 0\n"));
        for n in 2..=8 {
            for (i, j) in pairs(n) {
                let line = format!("answer 5 place {i} {j}\n");
                assert!(refusals
                    .iter()
                    .any(|(text, bytes)| { *text == line && bytes[bytes.len() - 4] == n as u8 }));
            }
        }
    }
}
