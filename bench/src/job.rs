//! A job with its name and its text, and its needs as formulas for the peers' encodings.

use crate::library::{Lent, Numbers, NO_CORRECT_SPLIT};
use crate::vjolthar::{AND, COLUMNS, END, OR};

/// A need: joins of one kind inside each other are one join of many parts.
#[derive(Clone, PartialEq, Debug)]
pub enum Formula {
    Column(usize),
    Both(Vec<Formula>),
    Either(Vec<Formula>),
}

pub struct Job {
    pub name: String,
    pub text: String,
    pub numbers: Numbers,
}

/// What a planner answers, as far as the peers are asked.
#[derive(Clone, Copy, PartialEq, Debug)]
pub enum Answer {
    Split { extracts: usize, columns: usize },
    Impossible,
}

impl Job {
    /// The job of a text; none if the library refuses it, as with brackets nested too deep.
    pub fn from_text(name: &str, text: &str) -> Option<Job> {
        let mut lent = Lent::new();
        let read = lent.read(text.as_bytes());
        if read.refusal != 0 {
            return None;
        }
        let numbers = Numbers {
            columns: read.columns,
            forbidden: lent.forbidden[..read.sets].to_vec(),
            marks: lent.marks[..read.marked].to_vec(),
            needs: read.needs,
        };
        Some(Job {
            name: name.to_string(),
            text: text.to_string(),
            numbers,
        })
    }

    /// The needs as formulas.
    pub fn needs(&self) -> Vec<Formula> {
        (0..self.numbers.needs)
            .map(|need| formula(self.numbers.need(need)))
            .collect()
    }

    /// The job with this need alone.
    pub fn with_need(&self, need: usize) -> Job {
        let numbers = Numbers {
            marks: [self.numbers.need(need), &[END]].concat(),
            needs: 1,
            ..self.numbers.clone()
        };
        Job {
            name: self.name.clone(),
            text: self.text.clone(),
            numbers,
        }
    }

    /// The columns of each forbidden set.
    pub fn forbidden(&self) -> Vec<Vec<usize>> {
        let columns = |set: &u16| {
            (0..COLUMNS)
                .filter(|column| set >> column & 1 == 1)
                .collect()
        };
        self.numbers.forbidden.iter().map(columns).collect()
    }

    /// The library's answer.
    pub fn answer(&self, lent: &mut Lent) -> Answer {
        let (refusal, count) = lent.plan(&self.numbers);
        if refusal == NO_CORRECT_SPLIT {
            return Answer::Impossible;
        }
        assert_eq!(refusal, 0, "job {} is refused:\n{}", self.name, self.text);
        let extracts = &lent.extracts[..count];
        let columns = extracts
            .iter()
            .map(|extract| extract.count_ones() as usize)
            .sum();
        Answer::Split {
            extracts: extracts.len(),
            columns,
        }
    }
}

/// The formula of a need's marks, which are fit.
fn formula(marks: &[u16]) -> Formula {
    let mut waiting: Vec<Formula> = Vec::new();
    for mark in marks {
        let next = match *mark {
            AND | OR => {
                let second = waiting.pop().expect("a join has two operands");
                let first = waiting.pop().expect("a join has two operands");
                joined(*mark == AND, first, second)
            }
            column => Formula::Column(column as usize),
        };
        waiting.push(next);
    }
    waiting.pop().expect("a need has a mark")
}

/// One join, into which an operand that is a join of the same kind is dissolved.
pub fn joined(both: bool, first: Formula, second: Formula) -> Formula {
    let mut parts = Vec::new();
    for operand in [first, second] {
        match operand {
            Formula::Both(inner) if both => parts.extend(inner),
            Formula::Either(inner) if !both => parts.extend(inner),
            other => parts.push(other),
        }
    }
    if both {
        Formula::Both(parts)
    } else {
        Formula::Either(parts)
    }
}

/// The formula as a job text has it: brackets only around an or-list within an and-list.
pub fn spelled(need: &Formula, names: &[String]) -> String {
    let all = |parts: &[Formula], sign: &str, bracketed: bool| {
        let spell = |part: &Formula| match part {
            Formula::Either(_) if bracketed => format!("({})", spelled(part, names)),
            _ => spelled(part, names),
        };
        parts.iter().map(spell).collect::<Vec<_>>().join(sign)
    };
    match need {
        Formula::Column(column) => names[*column].clone(),
        Formula::Both(parts) => all(parts, "&", true),
        Formula::Either(parts) => all(parts, "|", false),
    }
}

/// Short names of so many columns.
pub fn short_names(count: usize) -> Vec<String> {
    (0..count).map(|column| format!("c{column}")).collect()
}

/// The text of a job.
pub fn text(names: &[String], forbidden: &[Vec<usize>], needs: &[Formula]) -> String {
    let mut text = format!("columns={}\n", names.join(","));
    for set in forbidden {
        let named: Vec<&str> = set.iter().map(|column| names[*column].as_str()).collect();
        text += &format!("forbid={}\n", named.join("+"));
    }
    for need in needs {
        text += &format!("need={}\n", spelled(need, names));
    }
    text + &format!("end={}\n", forbidden.len() + needs.len())
}
