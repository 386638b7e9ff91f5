//! Questions for the two engines and the bound, with their answers, as plain lines.

use crate::compare;
use crate::exhaustive;
use crate::graph::{pair_count, pairs, Graph};
use crate::random::Random;
use crate::search::{bound, search, Answer, Engine, Question, FIXED, MOST_BUDGET};
use crate::sheet::Refusal;
use std::fmt::Display;
use std::io;
use std::path::Path;
use std::time::Duration;

/// How long a program may take over all questions.
const PATIENCE: Duration = Duration::from_secs(600);

/// The steps after which a random question's tree counts as large.
const LARGE: u32 = 5_000;

fn joined<T: Display>(list: &[T]) -> String {
    list.iter().map(|item| format!(" {item}")).collect()
}

/// `n k L room g E1 .. Eg p P1 .. Pp`
pub fn input_line(question: &Question) -> String {
    let Question {
        n,
        graph,
        prices,
        budget,
        most,
        room,
    } = question;
    format!(
        "{n} {budget} {most} {room} {}{} {}{}\n",
        graph.len(),
        joined(graph),
        prices.len(),
        joined(prices)
    )
}

/// `ENGINE number row column price steps m N1 .. Nm`, for each engine, and `bound number row column
/// bound`. What an answer does not have is 0.
pub fn output_lines(question: &Question) -> String {
    let mut text = String::new();
    for (name, engine) in [("plain", Engine::Plain), ("pruned", Engine::Pruned)] {
        let line = match search(engine, question) {
            Answer::Repaired {
                price,
                pairs,
                steps,
            } => format!("0 0 0 {price} {steps} {}{}", pairs.len(), joined(&pairs)),
            Answer::NoRepair { steps } => format!("8 0 0 0 {steps} 0"),
            Answer::Stopped { steps } => format!("9 0 0 0 {steps} 0"),
            Answer::Refused(refusal) => format!("{} 0 0 0", place(refusal)),
        };
        text.push_str(&format!("{name} {line}\n"));
    }
    let line = match bound(question.n, &question.graph, &question.prices) {
        Ok(bound) => format!("0 0 0 {bound}"),
        Err(refusal) => format!("{} 0", place(refusal)),
    };
    text.push_str(&format!("bound {line}\n"));
    text
}

fn place(refusal: Refusal) -> String {
    format!("{} {} {}", refusal.number, refusal.row, refusal.column)
}

/// The `index`-th question of a seed. Every sixteenth breaks a rule.
pub fn question(seed: u64, index: u64) -> Question {
    let mut random = Random::nth(seed, index);
    let mut question = good_question(&mut random);
    if index % 16 == 15 {
        damage(&mut random, &mut question);
    }
    question
}

fn good_question(random: &mut Random) -> Question {
    let n = random.pick(&[0, 1, 2, 3, 4, 4, 4, 5, 5, 5, 5, 6, 6, 6, 7, 7, 8, 8]);
    let mut graph = random_matrix(random, n);
    for _ in 0..4 {
        // Few of the graphs shall be clean from the start.
        if Graph::from_matrix(n, &graph).first_quad().is_none() {
            graph = random_matrix(random, n);
        }
    }
    let highest = random.pick(&[1, 1, 2, 3, 10, 10_000]);
    let fixed = random.pick(&[0, 0, 1, 2, 4, 7]);
    let mut prices = vec![0; n * n];
    for (i, j) in pairs(n) {
        let price = if random.chance(fixed, 8) {
            FIXED
        } else {
            random.range(1, highest) as u16
        };
        prices[i * n + j] = price;
        prices[j * n + i] = price;
    }
    let mut question = Question {
        n,
        graph,
        prices,
        budget: MOST_BUDGET,
        most: LARGE,
        room: pair_count(n) + random.pick(&[0, 0, 0, 1, 100]),
    };
    question.budget = budget(random, &question);
    question.most = most(random, &question);
    question
}

fn random_matrix(random: &mut Random, n: usize) -> Vec<u8> {
    let edges = 2 + random.below(5);
    let mut graph = vec![0; n * n];
    for (i, j) in pairs(n) {
        let edge = u8::from(random.chance(edges, 8));
        graph[i * n + j] = edge;
        graph[j * n + i] = edge;
    }
    graph
}

/// A budget around the best price, or any.
fn budget(random: &mut Random, question: &Question) -> u32 {
    let best = match search(Engine::Pruned, question) {
        Answer::Repaired { price, .. } => price,
        _ => 10,
    };
    match random.below(8) {
        0 => 0,
        1 => best.saturating_sub(1),
        2 | 3 => best,
        4 => best + 1,
        5 => best + random.below(best as usize + 3) as u32,
        6 => random.below(MOST_BUDGET as usize + 1) as u32,
        _ => MOST_BUDGET,
    }
}

/// A step limit around the size of either tree, or any.
fn most(random: &mut Random, question: &Question) -> u32 {
    let plain = search(Engine::Plain, question).steps();
    let pruned = search(Engine::Pruned, question).steps();
    match random.below(10) {
        0 => random.below(3) as u32,
        1 => random.below(100) as u32,
        2 => plain - 1,
        3 => pruned - 1,
        4 => pruned,
        5 if plain < LARGE => u32::MAX,
        6 | 7 => plain,
        8 => plain + 1,
        _ => LARGE,
    }
}

fn damage(random: &mut Random, question: &mut Question) {
    for _ in 0..1 + random.below(2) {
        let n = question.n;
        let entry = random.below(n * n + 1);
        match random.below(12) {
            0 => question.n = random.pick(&[129, 130, 256, 65_535]),
            1 => drop(question.graph.pop()),
            2 => question.graph.push(0),
            3 => drop(question.prices.pop()),
            4 => question.prices.push(0),
            5 => question.budget = random.pick(&[MOST_BUDGET + 1, u32::MAX]),
            6 => question.room = random.below(question.room + 1),
            7 | 8 if entry < question.graph.len() => {
                question.graph[entry] = random.pick(&[0, 1, 1, 2, 255]);
            }
            _ if entry < question.prices.len() => {
                question.prices[entry] = random.pick(&[0, 1, 7, 10_000, 10_001, 65_534, 65_535]);
            }
            _ => question.n += 1,
        }
    }
}

/// Compares both engines with the exhaustive search where that is quick. A wrong engine ends the
/// program: nothing it printed would be worth comparing with.
pub fn check(question: &Question) {
    let plain = search(Engine::Plain, question);
    let pruned = search(Engine::Pruned, question);
    assert!(pruned.steps() <= plain.steps());
    if question.n > 5 || matches!(plain, Answer::Refused(_)) {
        return;
    }
    let best = exhaustive::best(
        question.n,
        &question.graph,
        &question.prices,
        question.budget,
    );
    for answer in [plain, pruned] {
        match answer {
            Answer::Repaired { price, pairs, .. } => assert_eq!(best, Some((price, pairs))),
            Answer::NoRepair { .. } => assert_eq!(best, None),
            Answer::Stopped { steps } => assert_eq!(steps, question.most),
            Answer::Refused(_) => unreachable!(),
        }
    }
}

/// Gives all questions to a program, on its standard input, and compares what it prints. The number
/// of questions with a difference.
pub fn run(program: &Path, seed: u64, count: u64) -> io::Result<usize> {
    let questions: Vec<Question> = (0..count).map(|index| question(seed, index)).collect();
    let input: String = questions.iter().map(input_line).collect();
    let run = compare::run(program, vec![input.into_bytes()], PATIENCE)?;
    let printed = String::from_utf8_lossy(&run.output);
    let mut lines = printed.lines();
    let mut differences = 0;
    for (index, question) in questions.iter().enumerate() {
        check(question);
        let wanted = output_lines(question);
        let got: Vec<&str> = lines.by_ref().take(3).collect();
        if !wanted.lines().eq(got.iter().copied()) {
            differences += 1;
            if differences <= 5 {
                print!(
                    "difference {differences}: question {index} of seed {seed}\n{}",
                    input_line(question)
                );
                println!("wanted\n{}got\n{}", wanted, got.join("\n"));
            }
        }
    }
    if let Some(fault) = run.fault {
        println!("{fault}");
        differences = differences.max(1);
    }
    if lines.next().is_some() {
        println!("more lines than were wanted");
        differences = differences.max(1);
    }
    println!("outside: {count} questions, {differences} differences");
    Ok(differences)
}

#[cfg(test)]
mod tests {
    use super::*;

    /// A question can be read back from its line, and nothing is left over.
    #[test]
    fn input_lines_say_the_whole_question() {
        for index in 0..2_000 {
            let asked = question(51, index);
            let line = input_line(&asked);
            let mut numbers = line
                .split_whitespace()
                .map(|word| word.parse::<u64>().unwrap());
            let mut next = || numbers.next().unwrap();
            let (n, budget, most, room) = (next(), next(), next(), next());
            let count = next();
            let graph = (0..count).map(|_| next() as u8).collect();
            let count = next();
            let prices = (0..count).map(|_| next() as u16).collect();
            let read = Question {
                n: n as usize,
                graph,
                prices,
                budget: budget as u32,
                most: most as u32,
                room: room as usize,
            };
            assert_eq!(read, asked);
            assert_eq!(numbers.next(), None);
        }
    }

    /// README.md shows a question with its answer.
    #[test]
    fn the_example_is_right() {
        let path = [0, 1, 0, 0, 1, 0, 1, 0, 0, 1, 0, 1, 0, 0, 1, 0];
        let ones = [0, 1, 1, 1, 1, 0, 1, 1, 1, 1, 0, 1, 1, 1, 1, 0];
        let asked = Question {
            n: 4,
            graph: path.to_vec(),
            prices: ones.to_vec(),
            budget: 1,
            most: 7,
            room: 6,
        };
        let text = input_line(&asked) + &output_lines(&asked);
        let shown: String = text.lines().map(|line| format!("    {line}\n")).collect();
        assert!(include_str!("../README.md").contains(&shown));
    }

    /// Every number that an engine can give occurs, and every one that the bound can give.
    #[test]
    fn every_number_occurs() {
        let mut engines = [0; 12];
        let mut bounds = [0; 12];
        for index in 0..12_000 {
            let asked = question(1, index);
            check(&asked);
            assert!(asked.n <= 8 || index % 16 == 15);
            for line in output_lines(&asked).lines() {
                let number: usize = line.split(' ').nth(1).unwrap().parse().unwrap();
                if line.starts_with("bound") {
                    bounds[number] += 1;
                } else {
                    engines[number] += 1;
                }
            }
        }
        for number in [0, 1, 2, 3, 4, 6, 7, 8, 9, 10] {
            assert!(engines[number] > 20, "{number}: {engines:?}");
        }
        for number in [0, 1, 2, 3, 4, 6] {
            assert!(bounds[number] > 10, "{number}: {bounds:?}");
        }
        assert!(engines[8] > 1_000 && engines[9] > 1_000, "{engines:?}");
    }
}
