//! The paper's own cases and the examples, tried on the twin alone: a twin that is wrong would
//! prove nothing.

use differential::chance::Chance;
use differential::ours::vjolthar::{EXTRACTS, NODES, PAGE};
use differential::texts::longest;
use twin::diagram::{one_paths, NodeSlices};
use twin::jobs::Numbers;
use twin::page::report;
use twin::planner::plan;
use twin::text::{read, AND, END_OF_NEED as END, OR};

const OLD: u16 = 77;

/// Every known case: what it is and whether the twin is right about it.
pub fn cases() -> Vec<(String, bool)> {
    let mut cases = Vec::new();
    cases.extend(PLANS.iter().enumerate().map(|(row, known)| {
        let name = format!("split of row {} of the small table", row + 1);
        (name, known.right())
    }));
    cases.extend(DIAGRAMS.iter().enumerate().map(|(row, known)| {
        let name = format!("diagram of row {} of the small table", row + 1);
        (name, known.right())
    }));
    cases.extend(EXAMPLES.map(|(name, job, page)| (name.to_string(), page_of(job) == page)));
    cases.extend(texts().into_iter().map(|(text, refusal, place)| {
        let reading = read(&text);
        let name = format!("{refusal} at {place} for a text of {} bytes", text.len());
        (name, (reading.refusal, reading.place) == (refusal, place))
    }));
    cases
}

struct Plan {
    columns: usize,
    forbidden: &'static [u16],
    marks: &'static [u16],
    /// Nothing if there is no correct split.
    split: Option<&'static [u16]>,
}

const fn row(
    columns: usize,
    forbidden: &'static [u16],
    marks: &'static [u16],
    split: Option<&'static [u16]>,
) -> Plan {
    Plan {
        columns,
        forbidden,
        marks,
        split,
    }
}

const PLANS: [Plan; 10] = [
    row(1, &[], &[0, END], Some(&[1])),
    row(2, &[3], &[0, 1, OR, END], Some(&[1])),
    row(2, &[], &[0, 1, OR, END], Some(&[1])),
    row(2, &[3], &[0, 1, AND, END], None),
    row(2, &[3], &[0, END, 1, END], Some(&[1, 2])),
    row(1, &[], &[], Some(&[])),
    row(3, &[6], &[0, 1, AND, END, 0, 2, AND, END], None),
    row(3, &[], &[2, 0, 1, AND, OR, END], Some(&[4])),
    row(4, &[3], &[0, END, 1, 2, 3, AND, OR, END], Some(&[13])),
    row(3, &[], &[0, 1, OR, END, 2, END], Some(&[5])),
];

impl Plan {
    fn numbers(&self) -> Numbers<'static> {
        Numbers {
            columns: self.columns,
            forbidden: self.forbidden,
            marks: self.marks,
        }
    }

    fn right(&self) -> bool {
        let mut extracts = [OLD; EXTRACTS + 1];
        let answer = plan(self.numbers(), &mut extracts);
        let split = self.split.unwrap_or_default();
        let refusal = if self.split.is_some() { 0 } else { 9 };
        let (written, rest) = extracts.split_at(split.len());
        (answer.refusal, usize::from(answer.count)) == (refusal, split.len())
            && written == split
            && rest.iter().all(|&place| place == OLD)
    }
}

/// The diagram of the first need of a row, and its one-paths.
struct Diagram {
    plan: &'static Plan,
    root: u16,
    nodes: &'static [(u16, u16, u16)],
    paths: &'static [(u16, u16)],
}

const DIAGRAMS: [Diagram; 4] = [
    Diagram {
        plan: &PLANS[0],
        root: 2,
        nodes: &[(0, 0, 1)],
        paths: &[(1, 0)],
    },
    Diagram {
        plan: &PLANS[1],
        root: 4,
        nodes: &[(1, 0, 1), (1, 1, 0), (0, 2, 3)],
        paths: &[(2, 1), (1, 2)],
    },
    Diagram {
        plan: &PLANS[2],
        root: 3,
        nodes: &[(1, 0, 1), (0, 2, 1)],
        paths: &[(2, 1), (1, 0)],
    },
    Diagram {
        plan: &PLANS[3],
        root: 0,
        nodes: &[],
        paths: &[],
    },
];

impl Diagram {
    fn right(&self) -> bool {
        let [mut column, mut low, mut high] = [[OLD; NODES]; 3];
        let [mut ones, mut zeros] = [[OLD; 3]; 2];
        let mut nodes = NodeSlices {
            column: &mut column,
            low: &mut low,
            high: &mut high,
        };
        let answer = one_paths(self.plan.numbers(), 0, &mut nodes, &mut ones, &mut zeros);
        let drawn: Vec<_> = (0..self.nodes.len())
            .map(|place| (column[place], low[place], high[place]))
            .collect();
        let listed: Vec<_> = ones.into_iter().zip(zeros).take(self.paths.len()).collect();
        (answer.refusal, answer.root) == (0, self.root)
            && usize::from(answer.count) == self.nodes.len()
            && usize::from(answer.paths) == self.paths.len()
            && drawn == self.nodes
            && listed == self.paths
            && [column, low, high]
                .iter()
                .all(|slice| slice[drawn.len()] == OLD)
            && [ones, zeros].iter().all(|slice| slice[listed.len()] == OLD)
    }
}

macro_rules! example {
    ($name:literal) => {
        (
            concat!("examples/", $name),
            include_bytes!(concat!("../../../examples/", $name, ".job")),
            include_bytes!(concat!("../../../examples/", $name, ".out")),
        )
    };
}

const EXAMPLES: [(&str, &[u8], &[u8]); 6] = [
    example!("volunteers"),
    example!("census"),
    example!("patients"),
    example!("full"),
    example!("impossible"),
    example!("damaged"),
];

fn page_of(text: &[u8]) -> Vec<u8> {
    let mut page = [0; PAGE];
    let answer = report(text, &mut page);
    page[..answer.length].to_vec()
}

/// Texts with the refusal and the place they get.
fn texts() -> Vec<(Vec<u8>, u16, usize)> {
    let brackets = |count: usize| {
        let (open, closed) = ("(".repeat(count), ")".repeat(count));
        format!("columns=a\nneed={open}a{closed}\nend=1\n")
    };
    let names: Vec<String> = (0..17).map(|column| format!("a{column}")).collect();
    let columns = |count: usize| format!("columns={}\nend=0\n", names[..count].join(","));
    let mut texts: Vec<(Vec<u8>, u16, usize)> = [
        ("", 2, 0),
        ("columns=a\nend=0\n", 0, 0),
        ("columns=a,a\nend=0\n", 4, 10),
        ("columns=a\nforbid=b\nend=1\n", 5, 17),
        ("columns=a\nneed=a&\nend=1\n", 2, 17),
        ("columns=a\nneed=a\nforbid=a\nend=2\n", 2, 17),
        ("columns=a\nend=1\n", 6, 14),
        ("columns=a\nend=00\n", 2, 15),
        ("columns=a\nend=100\n", 2, 16),
        ("columns=a\nforbid=a+a+x\nend=1\n", 4, 19),
        ("columns=a\nforbid=x+a+a\nend=1\n", 5, 17),
        (&columns(16), 0, 0),
        (&columns(17), 3, 62),
        (&brackets(8), 0, 0),
        (&brackets(9), 2, 23),
    ]
    .map(|(text, refusal, place)| (text.as_bytes().to_vec(), refusal, place))
    .into();
    let mut longest = longest(&mut Chance::new(0, 0));
    texts.push((longest.clone(), 0, 0));
    longest.push(b'\n');
    texts.push((longest, 1, 8192));
    texts
}
