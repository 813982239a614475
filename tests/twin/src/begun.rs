//! Which input was begun last, in a file: that's all there is to tell after a crash.

use std::fs::File;
use std::os::unix::fs::FileExt;

const FILE: &str = "target/twin/begun";

pub struct Begun {
    file: File,
}

impl Begun {
    /// The file, with nothing begun.
    pub fn nothing() -> Begun {
        let file = File::create(FILE);
        Begun {
            file: file.unwrap_or_else(|error| panic!("{FILE}: {error}")),
        }
    }

    /// Notes the arguments of `tests/twin/run` that run the input alone.
    pub fn note(&self, only: &str) {
        // What a longer line left behind this one doesn't matter, as only the first is read.
        let written = self.file.write_all_at(format!("{only}\n").as_bytes(), 0);
        written.unwrap_or_else(|error| panic!("{FILE}: {error}"));
    }
}
