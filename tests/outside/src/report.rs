//! The text that `report` prints for given input.

use crate::graph::{Graph, NONE};
use crate::search::{search, Answer, Engine, Question, MOST_BUDGET};
use crate::sheet::{self, Refusal, Sheet, MOST_LENGTH};
use std::fmt::Write;

pub const MOST_STEPS: u32 = 1_000_000;

pub struct Report {
    pub text: String,
    pub n: usize,
    /// The search was left at the step limit.
    pub stopped: bool,
}

pub fn report(input: &[u8]) -> Report {
    report_within(input, MOST_STEPS)
}

/// The report with a step limit of one's own.
pub fn report_within(input: &[u8], most: u32) -> Report {
    let read = if input.len() > MOST_LENGTH {
        Err(Refusal::of(11))
    } else {
        sheet::read(input)
    };
    match read {
        Ok(sheet) => report_sheet(&sheet, most),
        Err(refusal) => Report {
            text: refused(refusal),
            n: 0,
            stopped: false,
        },
    }
}

fn refused(refusal: Refusal) -> String {
    let Refusal {
        number,
        row,
        column,
    } = refusal;
    format!("answer {number} place {row} {column}\n")
}

fn report_sheet(sheet: &Sheet, most: u32) -> Report {
    let (graph, prices) = sheet::matrices(sheet);
    let question = Question {
        n: sheet.n,
        graph,
        prices,
        budget: MOST_BUDGET,
        most,
        room: sheet.scores.len(),
    };
    let answer = search(Engine::Pruned, &question);
    let text = match &answer {
        Answer::Refused(refusal) => refused(*refusal),
        Answer::Stopped { steps } => format!("answer 9 steps {steps}\n"),
        Answer::NoRepair { .. } => unreachable!("the budget pays for every pair"),
        Answer::Repaired {
            price,
            pairs,
            steps,
        } => {
            let graph = Graph::from_matrix(sheet.n, &question.graph);
            repaired(graph, *price, pairs, *steps).expect("a string takes every line")
        }
    };
    Report {
        text,
        n: sheet.n,
        stopped: matches!(answer, Answer::Stopped { .. }),
    }
}

fn repaired(
    mut graph: Graph,
    price: u32,
    repair: &[u16],
    steps: u32,
) -> Result<String, std::fmt::Error> {
    let mut text = String::new();
    let n = graph.n;
    let edits = repair.len();
    writeln!(text, "vertices {n}")?;
    writeln!(text, "answer 0 cost {price} edits {edits} steps {steps}")?;
    for &pair in repair {
        let (i, j) = (usize::from(pair) / n, usize::from(pair) % n);
        let word = if graph.has(i, j) { "cut" } else { "join" };
        writeln!(text, "{word} {i} {j}")?;
        graph.toggle(i, j);
    }
    let parents = graph.forest();
    for (v, &parent) in parents.iter().enumerate() {
        if parent == NONE {
            writeln!(text, "parent {v} -")?;
        } else {
            writeln!(text, "parent {v} {parent}")?;
        }
    }
    let groups = parents.iter().filter(|&&parent| parent == NONE).count();
    writeln!(text, "groups {groups}")?;
    Ok(text)
}
