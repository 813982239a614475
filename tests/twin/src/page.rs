//! The page of the program `split`: the answer to a job text, in lines.

use crate::jobs::Numbers;
use crate::planner::best_split;
use crate::sets;
use crate::text::{read, Reading};

const LONGEST_PAGE: usize = 296;

#[derive(Debug, Default, PartialEq, Eq)]
pub struct ReportAnswer {
    pub refusal: u16,
    pub place: usize,
    pub length: usize,
}

/// Writes the page for a job text into the first places of the lent page.
pub fn report(text: &[u8], page: &mut [u8]) -> ReportAnswer {
    if page.len() < LONGEST_PAGE {
        return ReportAnswer {
            refusal: 8,
            ..ReportAnswer::default()
        };
    }
    let (refusal, place, lines) = lines(text);
    page[..lines.len()].copy_from_slice(&lines);
    ReportAnswer {
        refusal,
        place,
        length: lines.len(),
    }
}

fn lines(text: &[u8]) -> (u16, usize, Vec<u8>) {
    let reading = read(text);
    if reading.refusal != 0 {
        return refused(reading.refusal, reading.place);
    }
    let numbers = Numbers {
        columns: reading.columns,
        forbidden: &reading.forbidden,
        marks: &reading.marks,
    };
    let job = numbers.job().expect("a job read from text is fit");
    match best_split(&job) {
        None => refused(9, 0),
        Some(split) => (0, 0, split_lines(&reading, &split)),
    }
}

fn refused(refusal: u16, place: usize) -> (u16, usize, Vec<u8>) {
    let lines = format!("result=refused\nnumber={refusal}\nplace={place}\n");
    (refusal, place, lines.into_bytes())
}

fn split_lines(reading: &Reading, split: &[u16]) -> Vec<u8> {
    let mut lines = format!("result=split\nextracts={}\n", split.len()).into_bytes();
    for &extract in split {
        let names: Vec<&[u8]> = sets::members(extract)
            .map(|column| reading.names[column].as_slice())
            .collect();
        lines.extend(b"extract=");
        lines.extend(names.join(&b','));
        lines.push(b'\n');
    }
    lines
}
