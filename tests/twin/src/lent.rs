//! A job text read into lent slices, every place of their used part written.

use crate::text;

const FORBIDDEN_PLACES: usize = 32;
const MARK_PLACES: usize = 512;
const NAME_PLACES: usize = 192;
const PLACES_OF_A_NAME: usize = 12;

#[derive(Debug, Default, PartialEq, Eq)]
pub struct ReadAnswer {
    pub refusal: u16,
    pub place: usize,
    pub columns: usize,
    pub sets: usize,
    pub needs: usize,
    pub marked: usize,
}

/// Reads a job text into the lent slices.
pub fn read(
    job_text: &[u8],
    forbidden: &mut [u16],
    marks: &mut [u16],
    names: &mut [u8],
) -> ReadAnswer {
    if forbidden.len() < FORBIDDEN_PLACES || marks.len() < MARK_PLACES || names.len() < NAME_PLACES
    {
        return ReadAnswer {
            refusal: 8,
            ..ReadAnswer::default()
        };
    }
    let reading = text::read(job_text);
    fill(&mut forbidden[..FORBIDDEN_PLACES], &reading.forbidden);
    fill(&mut marks[..MARK_PLACES], &reading.marks);
    names[..NAME_PLACES].fill(0);
    for (row, name) in names.chunks_mut(PLACES_OF_A_NAME).zip(&reading.names) {
        fill(row, name);
    }
    ReadAnswer {
        refusal: reading.refusal,
        place: reading.place,
        columns: reading.columns,
        sets: reading.forbidden.len(),
        needs: reading.needs,
        marked: reading.marks.len(),
    }
}

/// Puts the numbers first and 0 into every place after them.
fn fill<T: Copy + Default>(places: &mut [T], numbers: &[T]) {
    places.fill(T::default());
    places[..numbers.len()].copy_from_slice(numbers);
}
