//! Sheets: notes, then scores, then a trailer that points back.

use crate::graph::{pair_count, pairs, MOST};

pub const MOST_NOTES: usize = 32_768;
pub const MOST_LENGTH: usize = 49_032;
pub const SCALE: i16 = 5_000;

/// A refusal's number and place.
#[derive(Clone, Copy, PartialEq, Eq, Debug)]
pub struct Refusal {
    pub number: u8,
    pub row: usize,
    pub column: usize,
}

impl Refusal {
    pub fn of(number: u8) -> Refusal {
        Refusal::at(number, 0, 0)
    }

    pub fn at(number: u8, row: usize, column: usize) -> Refusal {
        Refusal {
            number,
            row,
            column,
        }
    }
}

#[derive(Clone, PartialEq, Eq, Debug)]
pub struct Sheet {
    pub notes: Vec<u8>,
    pub n: usize,
    pub threshold: i16,
    pub scores: Vec<i16>,
}

fn off_the_scale(value: i16) -> bool {
    !(-SCALE..=SCALE).contains(&value)
}

/// Number 5: the threshold first, then the scores in their order.
fn check_scale(n: usize, threshold: i16, scores: &[i16]) -> Result<(), Refusal> {
    if off_the_scale(threshold) {
        return Err(Refusal::of(5));
    }
    match pairs(n).zip(scores).find(|(_, &s)| off_the_scale(s)) {
        Some(((i, j), _)) => Err(Refusal::at(5, i, j)),
        None => Ok(()),
    }
}

/// Reading a sheet: 11 if shorter than 8, 1, 11, 5.
pub fn read(bytes: &[u8]) -> Result<Sheet, Refusal> {
    let Some(start) = bytes.len().checked_sub(8) else {
        return Err(Refusal::of(11));
    };
    let trailer = &bytes[start..];
    let p = u32::from_le_bytes([trailer[0], trailer[1], trailer[2], trailer[3]]) as usize;
    let n = usize::from(u16::from_le_bytes([trailer[4], trailer[5]]));
    let threshold = i16::from_le_bytes([trailer[6], trailer[7]]);
    if n > MOST {
        return Err(Refusal::of(1));
    }
    if p > MOST_NOTES || bytes.len() != p + 2 * pair_count(n) + 8 {
        return Err(Refusal::of(11));
    }
    let scores: Vec<i16> = bytes[p..start]
        .chunks(2)
        .map(|two| i16::from_le_bytes([two[0], two[1]]))
        .collect();
    check_scale(n, threshold, &scores)?;
    Ok(Sheet {
        notes: bytes[..p].to_vec(),
        n,
        threshold,
        scores,
    })
}

/// Writing a sheet: 1, 2, 11 for the notes, 5.
pub fn write(sheet: &Sheet) -> Result<Vec<u8>, Refusal> {
    let n = sheet.n;
    if n > MOST {
        return Err(Refusal::of(1));
    }
    if sheet.scores.len() != pair_count(n) {
        return Err(Refusal::of(2));
    }
    if sheet.notes.len() > MOST_NOTES {
        return Err(Refusal::of(11));
    }
    check_scale(n, sheet.threshold, &sheet.scores)?;
    Ok(unchecked(
        &sheet.notes,
        &sheet.scores,
        sheet.notes.len() as u32,
        n as u16,
        sheet.threshold,
    ))
}

/// The bytes of a sheet whose parts may break any rule.
pub fn unchecked(notes: &[u8], scores: &[i16], p: u32, n: u16, threshold: i16) -> Vec<u8> {
    let mut bytes = notes.to_vec();
    for score in scores {
        bytes.extend(score.to_le_bytes());
    }
    bytes.extend(p.to_le_bytes());
    bytes.extend(n.to_le_bytes());
    bytes.extend(threshold.to_le_bytes());
    bytes
}

/// The graph and the prices of scores that were checked before, as n x n entries row by row.
pub fn matrices(sheet: &Sheet) -> (Vec<u8>, Vec<u16>) {
    let n = sheet.n;
    let mut graph = vec![0; n * n];
    let mut prices = vec![0; n * n];
    for ((i, j), &score) in pairs(n).zip(&sheet.scores) {
        let edge = u8::from(score > sheet.threshold);
        let price = score.abs_diff(sheet.threshold).max(1);
        for at in [i * n + j, j * n + i] {
            graph[at] = edge;
            prices[at] = price;
        }
    }
    (graph, prices)
}

#[cfg(test)]
mod tests {
    use super::*;
    use crate::random::Random;

    fn random_sheet(random: &mut Random) -> Sheet {
        let n = if random.chance(1, 8) {
            random.below(MOST + 1)
        } else {
            random.below(12)
        };
        let p = random.pick(&[0, 1, 7, 300, MOST_NOTES]);
        Sheet {
            notes: random.bytes(p),
            n,
            threshold: random.range(-5_000, 5_000) as i16,
            scores: pairs(n)
                .map(|_| random.range(-5_000, 5_000) as i16)
                .collect(),
        }
    }

    #[test]
    fn sheets_come_back() {
        let mut random = Random::new(61);
        for _ in 0..400 {
            let sheet = random_sheet(&mut random);
            let bytes = write(&sheet).unwrap();
            assert_eq!(bytes.len(), sheet.notes.len() + 2 * sheet.scores.len() + 8);
            assert_eq!(read(&bytes), Ok(sheet));
        }
    }

    #[test]
    fn what_is_read_is_written_again() {
        let mut random = Random::new(62);
        let mut taken = 0;
        for _ in 0..20_000 {
            // Any bytes in front of a trailer that may fit.
            let n = random.below(4);
            let p = random.below(4);
            let more = random.pick(&[0, 2, 6, 7]);
            let mut bytes = random.bytes(p + more);
            bytes.extend((p as u32).to_le_bytes());
            bytes.extend((n as u16).to_le_bytes());
            bytes.extend((random.range(-6_000, 6_000) as i16).to_le_bytes());
            if let Ok(sheet) = read(&bytes) {
                taken += 1;
                assert_eq!(write(&sheet), Ok(bytes));
            }
        }
        assert!(taken > 1_000);
    }

    #[test]
    fn the_order_of_numbers_when_reading() {
        let number = |bytes: &[u8]| read(bytes).unwrap_err();
        // Shorter than 8, whatever stands there.
        assert_eq!(number(&[0xFF; 7]), Refusal::of(11));
        // n above 128 before a wrong length, too many notes and anything off the scale.
        assert_eq!(number(&[0xFF; 8]), Refusal::of(1));
        assert_eq!(number(&unchecked(b"", &[], 9, 129, 6_000)), Refusal::of(1));
        // Lengths before the scale.
        let wrong = unchecked(b"", &[6_000], 1, 2, 6_000);
        assert_eq!(number(&wrong), Refusal::of(11));
        let notes = [0; MOST_NOTES + 1];
        let many = unchecked(&notes, &[6_000], notes.len() as u32, 2, 6_000);
        assert_eq!(number(&many), Refusal::of(11));
        // The threshold before the scores, then the first score.
        let both = unchecked(b"", &[0, 6_000, 6_000], 0, 3, -5_001);
        assert_eq!(number(&both), Refusal::of(5));
        let second = unchecked(b"", &[0, 6_000, 6_000], 0, 3, -5_000);
        assert_eq!(number(&second), Refusal::at(5, 0, 2));
        let third = unchecked(b"", &[0, 5_000, 5_001], 0, 3, -5_000);
        assert_eq!(number(&third), Refusal::at(5, 1, 2));
    }

    #[test]
    fn the_order_of_numbers_when_writing() {
        let refusal = |notes: usize, n: usize, scores: &[i16], threshold: i16| {
            let sheet = Sheet {
                notes: vec![0; notes],
                n,
                threshold,
                scores: scores.to_vec(),
            };
            write(&sheet).unwrap_err()
        };
        assert_eq!(refusal(40_000, 129, &[6_000], 6_000), Refusal::of(1));
        assert_eq!(refusal(40_000, 3, &[6_000], 6_000), Refusal::of(2));
        assert_eq!(refusal(32_769, 2, &[6_000], 6_000), Refusal::of(11));
        assert_eq!(refusal(32_768, 2, &[6_000], 6_000), Refusal::of(5));
        assert_eq!(refusal(32_768, 2, &[6_000], 5_000), Refusal::at(5, 0, 1));
    }
}
