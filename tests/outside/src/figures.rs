//! The figures of document 01, and its errors that look right.

use crate::graph::{pair_count, pairs, Graph};
use crate::report::report;
use crate::search::{better, bound, search, Answer, Engine, Question, FIXED, MOST_BUDGET};
use crate::sheet::{self, Refusal, Sheet};

const ENGINES: [Engine; 2] = [Engine::Plain, Engine::Pruned];

fn graph(n: usize, edges: &[(usize, usize)]) -> Graph {
    let mut graph = Graph::empty(n);
    for &(i, j) in edges {
        graph.toggle(i, j);
    }
    graph
}

/// A question with the prices in pair order, and no limit but the greatest.
fn question(n: usize, edges: &[(usize, usize)], prices: &[u16], budget: u32) -> Question {
    let mut entries = vec![0; n * n];
    let mut costs = vec![0; n * n];
    for &(i, j) in edges {
        entries[i * n + j] = 1;
        entries[j * n + i] = 1;
    }
    for ((i, j), &price) in pairs(n).zip(prices) {
        costs[i * n + j] = price;
        costs[j * n + i] = price;
    }
    Question {
        n,
        graph: entries,
        prices: costs,
        budget,
        most: u32::MAX,
        room: pair_count(n),
    }
}

fn repaired(price: u32, pairs: &[u16], steps: u32) -> Answer {
    Answer::Repaired {
        price,
        pairs: pairs.to_vec(),
        steps,
    }
}

const PATH: [(usize, usize); 3] = [(0, 1), (1, 2), (2, 3)];
const CYCLE: [(usize, usize); 4] = [(0, 1), (1, 2), (2, 3), (0, 3)];

#[test]
fn forests() {
    assert_eq!(graph(0, &[]).forest(), []);
    let triangle = graph(3, &[(0, 1), (0, 2), (1, 2)]);
    assert_eq!(triangle.forest(), [65_535, 0, 1]);
    let tail = graph(4, &[(0, 1), (1, 2), (2, 3), (0, 2)]);
    assert_eq!(tail.first_quad(), None);
    assert_eq!(tail.forest(), [2, 0, 65_535, 2]);
}

#[test]
fn quads() {
    assert_eq!(graph(4, &PATH).first_quad(), Some([0, 1, 2, 3]));
    let other = graph(4, &[(0, 1), (0, 3), (2, 3)]);
    assert_eq!(other.first_quad(), Some([1, 0, 3, 2]));
    assert_eq!(graph(4, &CYCLE).first_quad(), Some([0, 1, 2, 3]));
    // A cycle with a chord is clean.
    let chord = graph(4, &[(0, 1), (1, 2), (2, 3), (0, 3), (1, 3)]);
    assert_eq!(chord.first_quad(), None);
}

#[test]
fn the_first_path() {
    for engine in ENGINES {
        let path = |budget| question(4, &PATH, &[1; 6], budget);
        assert_eq!(search(engine, &path(0)), Answer::NoRepair { steps: 1 });
        assert_eq!(search(engine, &path(1)), repaired(1, &[1], 7));
        let priced = question(4, &PATH, &[5, 3, 1, 4, 3, 5], 10);
        assert_eq!(search(engine, &priced), repaired(3, &[2], 5));
        let fixed = question(4, &PATH, &[FIXED, FIXED, 1, FIXED, FIXED, FIXED], 10);
        assert_eq!(search(engine, &fixed), Answer::NoRepair { steps: 2 });
    }
}

#[test]
fn the_cycle() {
    for engine in ENGINES {
        let cycle = question(4, &CYCLE, &[1; 6], 1);
        assert_eq!(search(engine, &cycle), repaired(1, &[2], 7));
    }
}

#[test]
fn two_paths() {
    let edges = [(0, 1), (1, 2), (2, 3), (4, 5), (5, 6), (6, 7)];
    let two = question(8, &edges, &[1; 28], 1);
    let steps = |engine| search(engine, &two);
    assert_eq!(steps(Engine::Plain), Answer::NoRepair { steps: 7 });
    assert_eq!(steps(Engine::Pruned), Answer::NoRepair { steps: 1 });
    assert_eq!(bound(8, &two.graph, &two.prices), Ok(2));
}

#[test]
fn scores() {
    let made = |score, threshold| {
        let sheet = Sheet {
            notes: Vec::new(),
            n: 2,
            threshold,
            scores: vec![score],
        };
        let sheet = sheet::read(&sheet::write(&sheet)?)?;
        let (graph, prices) = sheet::matrices(&sheet);
        assert_eq!(graph[1], graph[2]);
        assert_eq!(prices[1], prices[2]);
        Ok::<_, Refusal>((graph[1], prices[1]))
    };
    assert_eq!(made(100, 100), Ok((0, 1)));
    assert_eq!(made(101, 100), Ok((1, 1)));
    assert_eq!(made(99, 100), Ok((0, 1)));
    assert_eq!(made(5_000, -5_000), Ok((1, 10_000)));
    assert_eq!(made(-5_000, 5_000), Ok((0, 10_000)));
    assert_eq!(made(5_001, -5_000), Err(Refusal::at(5, 0, 1)));
    assert_eq!(made(5_001, 5_001), Err(Refusal::of(5)));
}

#[test]
fn the_example_sheet() {
    let sheet = Sheet {
        notes: b"ab".to_vec(),
        n: 2,
        threshold: 100,
        scores: vec![300],
    };
    let bytes = [
        0x61, 0x62, 0x2C, 0x01, 0x02, 0x00, 0x00, 0x00, 0x02, 0x00, 0x64, 0x00,
    ];
    assert_eq!(sheet::write(&sheet), Ok(bytes.to_vec()));
    assert_eq!(sheet::read(&bytes), Ok(sheet));
}

#[test]
fn the_most_vertices() {
    for engine in ENGINES {
        let most = question(128, &[(0, 1)], &[1; 8_128], 0);
        assert_eq!(search(engine, &most), repaired(0, &[], 1));
        let more = question(129, &[(0, 1)], &[1; 8_256], 0);
        assert_eq!(search(engine, &more), Answer::Refused(Refusal::of(1)));
    }
    let sheet = |n: usize| sheet::unchecked(b"", &vec![0; pair_count(n)], 0, n as u16, 0);
    assert_eq!(sheet::read(&sheet(128)).map(|sheet| sheet.n), Ok(128));
    assert_eq!(sheet::read(&sheet(129)), Err(Refusal::of(1)));
}

#[test]
fn the_step_limit() {
    for engine in ENGINES {
        let mut path = question(4, &PATH, &[1; 6], 1);
        path.most = 7;
        assert_eq!(search(engine, &path), repaired(1, &[1], 7));
        for most in [6, 1, 0] {
            path.most = most;
            assert_eq!(search(engine, &path), Answer::Stopped { steps: most });
        }
    }
}

#[test]
fn the_report() {
    let bytes = sheet::unchecked(b"", &[1, -1, -1, 1, -1, 1], 0, 4, 0);
    let text = "\
vertices 4
answer 0 cost 1 edits 1 steps 7
cut 0 1
parent 0 -
parent 1 2
parent 2 -
parent 3 2
groups 2
";
    assert_eq!(report(&bytes).text, text);
}

#[test]
fn reports_of_nothing_and_of_refusals() {
    let text = |bytes: &[u8]| report(bytes).text;
    assert_eq!(
        text(&[0; 8]),
        "vertices 0\nanswer 0 cost 0 edits 0 steps 1\ngroups 0\n"
    );
    assert_eq!(text(&[0; 7]), "answer 11 place 0 0\n");
    let off = sheet::unchecked(b"", &[0, 0, -5_001], 0, 3, 0);
    assert_eq!(text(&off), "answer 5 place 1 2\n");
    // Too long is said before anything in it is looked at.
    let mut long = vec![0; 49_033 - 8];
    long.extend(sheet::unchecked(b"", &[], 0, 129, 0));
    assert_eq!(text(&long), "answer 11 place 0 0\n");
    assert_eq!(text(&long[1..]), "answer 1 place 0 0\n");
}

#[test]
fn joins_are_joins() {
    // A path whose cheapest change is a new edge.
    let bytes = sheet::unchecked(b"", &[9, -2, -9, 9, -9, 9], 0, 4, 0);
    assert!(report(&bytes).text.contains("\njoin 0 2\n"));
}

#[test]
fn the_better_list() {
    let better = |first: &[u16], second: &[u16]| better(first, second).to_vec();
    assert_eq!(better(&[1, 9], &[2]), [1, 9]);
    assert_eq!(better(&[2], &[1, 9]), [1, 9]);
    assert_eq!(better(&[1, 9], &[1]), [1]);
    assert_eq!(better(&[], &[1]), Vec::<u16>::new());
    let (first, second) = ([3, 4], [3, 4]);
    assert!(std::ptr::eq(
        super::search::better(&first, &second),
        &first[..]
    ));
}

/// An edited pair is never undone deeper down: toggling 03 and then 03 again is no repair.
#[test]
fn edits_stay() {
    for engine in ENGINES {
        let two_open = question(4, &PATH, &[FIXED, FIXED, 1, FIXED, 1, FIXED], 10);
        // 13 alone cleans the path; behind 03 it would close the cycle with a chord for 2.
        assert_eq!(search(engine, &two_open), repaired(1, &[7], 4));
    }
}

/// Each number comes before all that stand behind it in the order.
#[test]
fn the_order_of_numbers() {
    let number = |question: &Question| match search(Engine::Plain, question) {
        Answer::Refused(refusal) => (refusal.number, refusal.row, refusal.column),
        Answer::NoRepair { .. } => (8, 0, 0),
        Answer::Stopped { .. } => (9, 0, 0),
        Answer::Repaired { .. } => (0, 0, 0),
    };
    let mut asked = question(4, &PATH, &[1; 6], 0);
    assert_eq!(number(&asked), (8, 0, 0));
    asked.most = 0;
    assert_eq!(number(&asked), (9, 0, 0));
    asked.room = 5;
    assert_eq!(number(&asked), (10, 0, 0));
    asked.budget = MOST_BUDGET + 1;
    assert_eq!(number(&asked), (7, 0, 0));
    asked.prices[4 * 2 + 3] = 2;
    assert_eq!(number(&asked), (6, 2, 3));
    asked.prices[4 + 1] = 65_535;
    assert_eq!(number(&asked), (6, 1, 1));
    asked.prices[4] = 10_001;
    assert_eq!(number(&asked), (6, 0, 1));
    asked.graph[4 * 3 + 2] = 0;
    assert_eq!(number(&asked), (4, 2, 3));
    asked.graph[4 * 2 + 3] = 2;
    assert_eq!(number(&asked), (3, 2, 3));
    asked.graph[4 + 1] = 1;
    assert_eq!(number(&asked), (3, 1, 1));
    asked.graph[4] = 9;
    assert_eq!(number(&asked), (4, 0, 1));
    asked.prices.pop();
    assert_eq!(number(&asked), (2, 0, 0));
    asked.n = 129;
    assert_eq!(number(&asked), (1, 0, 0));
}
