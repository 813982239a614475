//! The job texts that are kept in files, the planner's hardest and the largest diagram among them:
//! chance doesn't reach such jobs.

use crate::begun::Begun;
use differential::cases::{
    DiagramCase, JobCase, JudgeCase, Lent, PathsCase, PlanCase, ReadCase, ReportCase,
};
use differential::chance::Chance;
use differential::compare::Input;
use differential::ours::vjolthar::{EXTRACTS, FORBIDDEN, MARKS, NAMES, NODES, PAGE};
use differential::{inputs, ours, splits};
use twin::text;

/// The inputs a stored job gives, with the sizes of its largest answers.
#[derive(Default)]
pub struct Stored {
    pub inputs: Vec<Box<dyn Input>>,
    nodes: u16,
    paths: u16,
}

impl Stored {
    /// All six calls on the job of a file: none but the first two if the text is refused.
    pub fn new(file: &str) -> Result<Stored, String> {
        let text = std::fs::read(file).map_err(|error| format!("{file}: {error}\n"))?;
        let reading = text::read(&text);
        // The same for every file, so that none depends on those before it.
        let chance = &mut Chance::new(0, 0);
        ours::set_null_turn(false);
        let mut stored = Stored::default();
        stored.add_texts(chance, text);
        if reading.refusal == 0 {
            let job = JobCase {
                columns: reading.columns,
                forbidden: reading.forbidden,
                marks: reading.marks,
            };
            // One past the needs is "no need".
            for chosen in 0..=reading.needs {
                stored.add_diagrams(chance, &job, chosen);
            }
            stored.add_splits(chance, job);
        }
        Ok(stored)
    }

    fn add(&mut self, input: impl Input + 'static) {
        self.inputs.push(Box::new(input));
    }

    fn add_texts(&mut self, chance: &mut Chance, text: Vec<u8>) {
        self.add(ReadCase {
            text: text.clone(),
            forbidden: numbers(chance, FORBIDDEN),
            marks: numbers(chance, MARKS),
            names: bytes(chance, NAMES),
        });
        self.add(ReportCase {
            text,
            page: bytes(chance, PAGE),
        });
    }

    fn add_diagrams(&mut self, chance: &mut Chance, job: &JobCase, chosen: usize) {
        let mut diagram = || DiagramCase {
            job: job.clone(),
            chosen,
            nodes: [NODES; 3].map(|length| numbers(chance, length)),
        };
        let (alone, with_paths) = (diagram(), diagram());
        let answer = inputs::drawn(&alone);
        self.nodes = self.nodes.max(answer.count);
        self.paths = self.paths.max(answer.paths);
        self.add(alone);
        self.add(PathsCase {
            diagram: with_paths,
            ones: numbers(chance, answer.paths.into()),
            zeros: numbers(chance, answer.paths.into()),
        });
    }

    fn add_splits(&mut self, chance: &mut Chance, job: JobCase) {
        self.add(PlanCase {
            job: job.clone(),
            extracts: numbers(chance, EXTRACTS),
        });
        let split = splits::planned(&job);
        self.add(JudgeCase { job, split });
    }
}

/// Slices just long enough, full of old contents.
fn numbers(chance: &mut Chance, length: usize) -> Lent<u16> {
    Lent::new(length, || chance.number() as u16)
}

fn bytes(chance: &mut Chance, length: usize) -> Lent<u8> {
    Lent::new(length, || chance.number() as u8)
}

/// Compares all stored jobs and prints what there was; no jobs at all are a failure too.
pub fn agree(files: &[&str], begun: &Begun) -> bool {
    let (mut inputs, mut nodes, mut paths) = (0, 0, 0);
    for file in files {
        let only = format!("--only stored {file}");
        begun.note(&only);
        match compared(file) {
            Ok(stored) => {
                inputs += stored.inputs.len();
                nodes = nodes.max(stored.nodes);
                paths = paths.max(stored.paths);
            }
            Err(account) => {
                println!("{account}  again: tests/twin/run {only}");
                return false;
            }
        }
    }
    println!(
        "twin: stored jobs: {}, inputs: {inputs}, largest diagram: {nodes} nodes, most paths: {paths}",
        files.len()
    );
    !files.is_empty()
}

fn compared(file: &str) -> Result<Stored, String> {
    let stored = Stored::new(file)?;
    for input in &stored.inputs {
        input.compare()?;
    }
    Ok(stored)
}
