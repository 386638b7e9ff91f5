//! Runs a built `report` program on sheets and compares every byte that it prints.

use crate::generate;
use crate::random::Random;
use std::io::{self, Read, Write};
use std::path::{Path, PathBuf};
use std::process::{Command, Stdio};
use std::sync::mpsc;
use std::thread;
use std::time::Duration;

/// Differences that are printed in full before the comparison gives up.
const ENOUGH: usize = 5;

pub struct Options {
    pub program: PathBuf,
    pub count: usize,
    pub seed: u64,
    /// Where sheets with a difference are saved.
    pub save: PathBuf,
    /// How long one run of the program may take.
    pub patience: Duration,
}

/// What one run of the program did.
pub struct Run {
    pub output: Vec<u8>,
    pub complaint: Vec<u8>,
    /// It crashed, was killed or took too long.
    pub fault: Option<String>,
}

/// Runs the program with these pieces, one after the other, on its standard input.
pub fn run(program: &Path, pieces: Vec<Vec<u8>>, patience: Duration) -> io::Result<Run> {
    let mut child = Command::new(program)
        .stdin(Stdio::piped())
        .stdout(Stdio::piped())
        .stderr(Stdio::piped())
        .spawn()
        .map_err(|error| io::Error::new(error.kind(), format!("{}: {error}", program.display())))?;
    let mut stdin = child.stdin.take().expect("piped");
    let mut stdout = child.stdout.take().expect("piped");
    let mut stderr = child.stderr.take().expect("piped");
    thread::spawn(move || {
        for (at, piece) in pieces.iter().enumerate() {
            if at > 0 {
                thread::sleep(Duration::from_millis(1));
            }
            // The program may have read enough and be gone.
            if stdin.write_all(piece).is_err() {
                break;
            }
        }
    });
    let complaint = thread::spawn(move || {
        let mut bytes = Vec::new();
        let _ = stderr.read_to_end(&mut bytes);
        bytes
    });
    let (sender, receiver) = mpsc::channel();
    thread::spawn(move || {
        let mut bytes = Vec::new();
        let _ = stdout.read_to_end(&mut bytes);
        let _ = sender.send(bytes);
    });
    let Ok(output) = receiver.recv_timeout(patience) else {
        child.kill()?;
        child.wait()?;
        return Ok(Run {
            output: Vec::new(),
            complaint: Vec::new(),
            fault: Some(format!("no end after {} seconds", patience.as_secs())),
        });
    };
    let status = child.wait()?;
    let fault = match status.code() {
        // A shell says 128 and more for a program that was killed.
        Some(code) if code < 126 => None,
        _ => Some(format!("ended badly: {status}")),
    };
    Ok(Run {
        output,
        complaint: complaint.join().unwrap_or_default(),
        fault,
    })
}

/// The number of differences.
pub fn compare(options: &Options) -> io::Result<usize> {
    let (seed, count) = (options.seed, options.count);
    let (sender, receiver) = mpsc::sync_channel(256);
    // The next sheets and their reports are made while the program runs.
    let maker = crate::with_deep_stack(move || {
        for case in generate::cases(seed, count) {
            if sender.send(case).is_err() {
                break;
            }
        }
    });
    let mut done = 0;
    let mut differences = 0;
    for case in &receiver {
        let bytes = case.bytes;
        let run = run(
            &options.program,
            in_pieces(&bytes, seed, done),
            options.patience,
        )?;
        let wanted = case.report.text.as_bytes();
        if run.fault.is_some() || run.output != wanted {
            differences += 1;
            let file = options.save.join(format!("outside-{seed}-{done}.sheet"));
            std::fs::write(&file, &bytes)?;
            println!(
                "difference {differences}: sheet {done} of seed {seed} ({}, {} vertices, {} bytes), saved as {}",
                case.name,
                case.report.n,
                bytes.len(),
                file.display()
            );
            explain(wanted, &run);
        }
        done += 1;
        if differences == ENOUGH || run.fault.is_some() {
            break;
        }
    }
    drop(receiver);
    maker.join().expect("the sheets' maker");
    let early = if done < count { ", given up" } else { "" };
    println!("outside: {done} sheets, {differences} differences{early}");
    Ok(differences)
}

/// Most sheets in one piece, every eighth in a few: a pipe may bring less than was asked for.
fn in_pieces(bytes: &[u8], seed: u64, index: usize) -> Vec<Vec<u8>> {
    let mut random = Random::nth(!seed, index as u64);
    let mut cuts = vec![0, bytes.len()];
    if index % 8 == 0 {
        for _ in 0..1 + random.below(4) {
            cuts.push(random.below(bytes.len() + 1));
        }
    }
    cuts.sort();
    cuts.windows(2)
        .map(|ends| bytes[ends[0]..ends[1]].to_vec())
        .collect()
}

fn explain(wanted: &[u8], run: &Run) {
    if let Some(fault) = &run.fault {
        println!("  {fault}");
    }
    let mut ours = wanted.split_inclusive(|&byte| byte == b'\n');
    let mut theirs = run.output.split_inclusive(|&byte| byte == b'\n');
    for line in 1.. {
        let (our, their) = (ours.next(), theirs.next());
        if our == their && our.is_some() {
            continue;
        }
        if our != their {
            println!("  line {line}: wanted {}", shown(our));
            println!("  line {line}: got    {}", shown(their));
        }
        break;
    }
    for line in String::from_utf8_lossy(&run.complaint).lines().take(5) {
        println!("  it said: {line}");
    }
}

fn shown(line: Option<&[u8]>) -> String {
    match line {
        None => "nothing".to_string(),
        Some(line) => format!("{:?}", String::from_utf8_lossy(line)),
    }
}

#[cfg(test)]
mod tests {
    use super::*;

    #[test]
    fn pieces_make_the_whole() {
        let bytes: Vec<u8> = (0..100).collect();
        for index in 0..64 {
            let pieces = in_pieces(&bytes, 1, index);
            assert_eq!(pieces.concat(), bytes);
            assert_eq!(pieces.len() > 1, index % 8 == 0);
        }
        assert_eq!(in_pieces(&[], 1, 0).concat(), []);
    }
}
