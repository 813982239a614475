//! One comparison for each of the six calls: both sides get the same input and the same old
//! contents, and have to answer the same numbers and leave the same in every place.

use crate::cases::{
    text_account, DiagramCase, JudgeCase, Lent, PathsCase, PlanCase, ReadCase, ReportCase,
};
use crate::ours::{self, vjolthar::NODES};
use std::fmt::{Debug, Display, Formatter, Result as Written};
use twin::diagram::NodeSlices;

/// What kind of answer both sides gave, to be counted.
#[derive(Clone, Copy, Debug, PartialEq, Eq, PartialOrd, Ord)]
pub enum Outcome {
    Refusal(u16),
    /// Refusal 8 of the one-path call with the diagram written.
    TooManyPaths,
    Fault(u16),
    /// A plan of this many extracts.
    Plan(u16),
}

impl Display for Outcome {
    fn fmt(&self, out: &mut Formatter) -> Written {
        match self {
            Outcome::Refusal(number) => write!(out, "refusal {number}"),
            Outcome::TooManyPaths => write!(out, "refusal 8 after the diagram"),
            Outcome::Fault(number) => write!(out, "fault {number}"),
            Outcome::Plan(extracts) => write!(out, "plan of {extracts}"),
        }
    }
}

/// The outcome both agree on, or an account of the disagreement.
pub type Compared = Result<Outcome, String>;

/// An input of one of the six calls.
pub trait Input {
    fn call(&self) -> &'static str;
    /// All of it but the old contents of the lent slices.
    fn account(&self) -> String;
    /// Gives it to both sides.
    fn compare(&self) -> Compared;
}

/// Collects in what the two sides differ.
struct Check {
    answers: String,
    differences: Vec<String>,
}

impl Check {
    fn new<A: Debug + PartialEq>(twin: &A, ours: &A) -> Check {
        let mut differences = Vec::new();
        if twin != ours {
            differences.push("the answered numbers differ".to_string());
        }
        Check {
            answers: format!("  the twin answers    {twin:?}\n  the library answers {ours:?}\n"),
            differences,
        }
    }

    fn slice<T: Copy + PartialEq + Debug>(&mut self, name: &str, twin: &Lent<T>, ours: &Lent<T>) {
        if let Some((place, one, other)) = twin.difference(ours) {
            let length = twin.length();
            self.differences.push(format!(
                "slice {name} of {length} places, place {place}: the twin leaves {one:?}, the library {other:?}"
            ));
        }
    }

    fn compared(self, outcome: Outcome, input: &dyn Input) -> Compared {
        if self.differences.is_empty() {
            return Ok(outcome);
        }
        Err(format!(
            "DISAGREEMENT in {}\n{}{}  {}\n",
            input.call(),
            input.account(),
            self.answers,
            self.differences.join("\n  ")
        ))
    }
}

impl Input for ReadCase {
    fn call(&self) -> &'static str {
        "read"
    }

    fn account(&self) -> String {
        let lengths = [
            self.forbidden.length(),
            self.marks.length(),
            self.names.length(),
        ];
        format!("{}  slice lengths {lengths:?}\n", text_account(&self.text))
    }

    fn compare(&self) -> Compared {
        let run = |call: fn(&[u8], &mut [u16], &mut [u16], &mut [u8]) -> _| {
            let mut forbidden = self.forbidden.clone();
            let mut marks = self.marks.clone();
            let mut names = self.names.clone();
            let answer = call(&self.text, forbidden.slice(), marks.slice(), names.slice());
            (answer, forbidden, marks, names)
        };
        let twin = run(twin::lent::read);
        let ours = run(ours::read);
        let mut check = Check::new(&twin.0, &ours.0);
        check.slice("forbidden", &twin.1, &ours.1);
        check.slice("marks", &twin.2, &ours.2);
        check.slice("names", &twin.3, &ours.3);
        check.compared(Outcome::Refusal(twin.0.refusal), self)
    }
}

/// The three node slices of a case, to be lent together.
fn lend(nodes: &mut [Lent<u16>; 3]) -> NodeSlices<'_> {
    let [column, low, high] = nodes;
    NodeSlices {
        column: column.slice(),
        low: low.slice(),
        high: high.slice(),
    }
}

fn nodes_differ(check: &mut Check, twin: &[Lent<u16>; 3], ours: &[Lent<u16>; 3]) {
    for (name, (one, other)) in ["column", "low", "high"].iter().zip(twin.iter().zip(ours)) {
        check.slice(name, one, other);
    }
}

impl Input for DiagramCase {
    fn call(&self) -> &'static str {
        "diagram"
    }

    fn account(&self) -> String {
        let [column, low, high] = &self.nodes;
        let lengths = [column, low, high].map(Lent::length);
        format!(
            "{}  chosen {}\n  node slice lengths {lengths:?}\n",
            self.job.account(),
            self.chosen
        )
    }

    fn compare(&self) -> Compared {
        let (mut twin_nodes, mut our_nodes) = (self.nodes.clone(), self.nodes.clone());
        let numbers = self.job.numbers();
        let twin = twin::diagram::diagram(numbers, self.chosen, &mut lend(&mut twin_nodes));
        let ours = ours::diagram(numbers, self.chosen, &mut lend(&mut our_nodes));
        let mut check = Check::new(&twin, &ours);
        nodes_differ(&mut check, &twin_nodes, &our_nodes);
        check.compared(Outcome::Refusal(twin.refusal), self)
    }
}

impl Input for PathsCase {
    fn call(&self) -> &'static str {
        "one_paths"
    }

    fn account(&self) -> String {
        let lengths = [self.ones.length(), self.zeros.length()];
        let diagram = self.diagram.account();
        format!("{diagram}  path slice lengths {lengths:?}\n")
    }

    fn compare(&self) -> Compared {
        let numbers = self.diagram.job.numbers();
        let chosen = self.diagram.chosen;
        let run = |call: fn(_, usize, &mut NodeSlices, &mut [u16], &mut [u16]) -> _| {
            let mut nodes = self.diagram.nodes.clone();
            let mut ones = self.ones.clone();
            let mut zeros = self.zeros.clone();
            let slices = &mut lend(&mut nodes);
            let answer = call(numbers, chosen, slices, ones.slice(), zeros.slice());
            (answer, nodes, ones, zeros)
        };
        let twin = run(twin::diagram::one_paths);
        let ours = run(ours::one_paths);
        let mut check = Check::new(&twin.0, &ours.0);
        nodes_differ(&mut check, &twin.1, &ours.1);
        check.slice("ones", &twin.2, &ours.2);
        check.slice("zeros", &twin.3, &ours.3);
        let mut node_slices = self.diagram.nodes.iter();
        let long_enough = node_slices.all(|slice| slice.length() >= NODES);
        let outcome = match twin.0.refusal {
            8 if long_enough => Outcome::TooManyPaths,
            refusal => Outcome::Refusal(refusal),
        };
        check.compared(outcome, self)
    }
}

impl Input for JudgeCase {
    fn call(&self) -> &'static str {
        "judge"
    }

    fn account(&self) -> String {
        format!("{}  split {:?}\n", self.job.account(), self.split)
    }

    fn compare(&self) -> Compared {
        let twin = twin::judge::judge(self.job.numbers(), &self.split);
        let ours = ours::judge(self.job.numbers(), &self.split);
        let outcome = match twin.refusal {
            0 => Outcome::Fault(twin.fault),
            refusal => Outcome::Refusal(refusal),
        };
        Check::new(&twin, &ours).compared(outcome, self)
    }
}

impl Input for PlanCase {
    fn call(&self) -> &'static str {
        "plan"
    }

    fn account(&self) -> String {
        let length = self.extracts.length();
        format!("{}  slice length {length}\n", self.job.account())
    }

    fn compare(&self) -> Compared {
        let (mut twin_extracts, mut our_extracts) = (self.extracts.clone(), self.extracts.clone());
        let twin = twin::planner::plan(self.job.numbers(), twin_extracts.slice());
        let ours = ours::plan(self.job.numbers(), our_extracts.slice());
        let mut check = Check::new(&twin, &ours);
        check.slice("extracts", &twin_extracts, &our_extracts);
        let outcome = match twin.refusal {
            0 => Outcome::Plan(twin.count),
            refusal => Outcome::Refusal(refusal),
        };
        check.compared(outcome, self)
    }
}

impl Input for ReportCase {
    fn call(&self) -> &'static str {
        "report"
    }

    fn account(&self) -> String {
        let length = self.page.length();
        format!("{}  page length {length}\n", text_account(&self.text))
    }

    fn compare(&self) -> Compared {
        let (mut twin_page, mut our_page) = (self.page.clone(), self.page.clone());
        let twin = twin::page::report(&self.text, twin_page.slice());
        let ours = ours::report(&self.text, our_page.slice());
        let mut check = Check::new(&twin, &ours);
        check.slice("page", &twin_page, &our_page);
        check.compared(Outcome::Refusal(twin.refusal), self)
    }
}
