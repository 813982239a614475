//! The sentences that stand above the tables.

/// For each peer of the planner its heading and the sentences.
pub const PLANNER: [(&str, &str); 2] = [
    (
        "Planner beside clingo",
        "Clingo is asked for the fewest extracts, then the fewest columns; ours chooses among the \
         splits that are left too. Clingo runs as a process: the first ratio has the whole \
         process, the second leaves out its start-up, which is measured beside each run.",
    ),
    (
        "Planner beside z3",
        "Z3 is asked for the same as clingo. It runs inside the measuring process: reading the job \
         in its own language is counted, starting is not.",
    ),
];

pub const HARDEST: &str = "Jobs of 15 and 16 columns. `hard` and `hard-ours` were searched for \
    the time that ours takes, `hard-clingo` and `hard-z3` for the time of that peer. In \
    `hard-impossible`, made by hand, eight needs that must lie apart want one of the same seven \
    columns each. The spread is over the repeats.";

pub const DIAGRAM_HEADING: &str = "Diagram beside BuDDy";
#[cfg(buddy)]
pub const DIAGRAM: &str = "Fresh: BuDDy's node table and caches are new and empty, and only the \
    building is counted. With set-up: making and freeing them is counted too, as ours starts from \
    nothing in each call. Again: the same diagram is built again and again over one large node \
    table, so that BuDDy finds most answers in its caches.";

pub const READER: &str = "The plain reader is that of the tests, a recursive-descent reader in \
    Rust, compiled with `-O`. Damaged texts have one byte changed, or are cut short, at a random \
    place.";

pub const GROWTH: &str = "Jobs with 8 forbidden sets and 4 needs, in microseconds, and the factor \
    to the row before. The diagram and the one-paths are those of need 0.";

pub const THREE: &str = "The jobs `typical`, `dense` and `hard` of bench/jobs. `one_paths` draws \
    the diagram too.";

pub const NOT_INSTALLED: &str = "Not installed here, so not measured.";
