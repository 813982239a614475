//! The inputs of the six calls, the old contents of every lent slice among them.

use twin::jobs::Numbers;

/// Places before and behind a lent slice that no call may touch; they are compared too.
const GUARD: usize = 4;

/// A slice to be lent, between guards.
#[derive(Clone)]
pub struct Lent<T> {
    places: Vec<T>,
}

impl<T: Copy + PartialEq> Lent<T> {
    /// A slice of this length, its old contents and the guards taken from `old`.
    pub fn new(length: usize, old: impl FnMut() -> T) -> Self {
        let places = std::iter::repeat_with(old).take(length + 2 * GUARD);
        Lent {
            places: places.collect(),
        }
    }

    pub fn slice(&mut self) -> &mut [T] {
        let end = self.places.len() - GUARD;
        &mut self.places[GUARD..end]
    }

    pub fn length(&self) -> usize {
        self.places.len() - 2 * GUARD
    }

    /// The first place where two slices differ, a negative one or one past the end for a guard,
    /// with what each has there.
    pub fn difference(&self, other: &Self) -> Option<(isize, T, T)> {
        let pairs = self.places.iter().zip(&other.places);
        let mut differing = pairs.enumerate().filter(|(_, (one, two))| one != two);
        let (place, (one, two)) = differing.next()?;
        Some((place as isize - GUARD as isize, *one, *two))
    }
}

#[derive(Clone)]
pub struct JobCase {
    pub columns: usize,
    pub forbidden: Vec<u16>,
    pub marks: Vec<u16>,
}

impl JobCase {
    pub fn numbers(&self) -> Numbers<'_> {
        Numbers {
            columns: self.columns,
            forbidden: &self.forbidden,
            marks: &self.marks,
        }
    }

    pub fn account(&self) -> String {
        let JobCase {
            columns,
            forbidden,
            marks,
        } = self;
        format!("  columns {columns}\n  forbidden {forbidden:?}\n  marks {marks:?}\n")
    }
}

pub struct ReadCase {
    pub text: Vec<u8>,
    pub forbidden: Lent<u16>,
    pub marks: Lent<u16>,
    pub names: Lent<u8>,
}

pub struct DiagramCase {
    pub job: JobCase,
    pub chosen: usize,
    pub nodes: [Lent<u16>; 3],
}

pub struct PathsCase {
    pub diagram: DiagramCase,
    pub ones: Lent<u16>,
    pub zeros: Lent<u16>,
}

pub struct JudgeCase {
    pub job: JobCase,
    pub split: Vec<u16>,
}

pub struct PlanCase {
    pub job: JobCase,
    pub extracts: Lent<u16>,
}

pub struct ReportCase {
    pub text: Vec<u8>,
    pub page: Lent<u8>,
}

/// A text twice, since escapes are read more easily and hex can be taken into a file.
pub fn text_account(text: &[u8]) -> String {
    let hex: String = text.iter().map(|byte| format!("{byte:02x}")).collect();
    let escaped = text.escape_ascii();
    format!(
        "  text of {} bytes \"{escaped}\"\n  in hex {hex}\n",
        text.len()
    )
}
