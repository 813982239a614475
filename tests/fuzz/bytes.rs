//! Bytes as a job in numbers with a split. An even first byte gives a fit job, since numbers by
//! chance hardly ever are one.

use differential::cases::{JobCase, JudgeCase};
use twin::text::{AND, END_OF_NEED, OR};

/// The job and the split these bytes stand for.
pub fn judged(data: &[u8]) -> JudgeCase {
    let mut bytes = data.iter().copied();
    let kind = bytes.next().unwrap_or(0);
    let sizes = [(); 3].map(|()| usize::from(bytes.next().unwrap_or(0)));
    let mut sets = |count: usize| -> Vec<u16> {
        let pair = || Some(u16::from_le_bytes([bytes.next()?, bytes.next()?]));
        std::iter::from_fn(pair).take(count).collect()
    };
    let forbidden = sets(sizes[1] % 36);
    let split = sets(sizes[2] % 12);
    let job = if kind % 2 == 0 {
        fit(sizes[0] % 16 + 1, forbidden, bytes)
    } else {
        any(sizes[0], forbidden, bytes)
    };
    JudgeCase { job, split }
}

/// The numbers as they come, with some that are far too high.
fn any(size: usize, forbidden: Vec<u16>, bytes: impl Iterator<Item = u8>) -> JobCase {
    let columns = match size % 24 {
        23 => usize::MAX,
        few => few,
    };
    let mark = |byte: u8| match byte {
        255 => u16::MAX,
        few => u16::from(few) % 20,
    };
    JobCase {
        columns,
        forbidden,
        marks: bytes.map(mark).collect(),
    }
}

/// The nearest fit job.
fn fit(columns: usize, forbidden: Vec<u16>, bytes: impl Iterator<Item = u8>) -> JobCase {
    let within = |set: u16| (set & twin::sets::full(columns)).max(1);
    let mut marks = Vec::new();
    let mut needs = 0;
    let (mut operands, mut names) = (0, 0);
    for byte in bytes.chain([u8::MAX]) {
        match byte {
            0..=159 if names < 32 => {
                marks.push(u16::from(byte) % columns as u16);
                operands += 1;
                names += 1;
            }
            160..=239 if operands > 1 => {
                marks.push(if byte % 2 == 0 { AND } else { OR });
                operands -= 1;
            }
            240.. if operands > 0 && needs < 8 => {
                marks.extend(vec![AND; operands - 1]);
                marks.push(END_OF_NEED);
                needs += 1;
                (operands, names) = (0, 0);
            }
            _ => {}
        }
    }
    // Operands after the eighth need belong to none.
    let closed = marks.iter().rposition(|&mark| mark == END_OF_NEED);
    marks.truncate(closed.map_or(0, |last| last + 1));
    JobCase {
        columns,
        forbidden: forbidden.into_iter().take(32).map(within).collect(),
        marks,
    }
}
