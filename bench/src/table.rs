//! Tables in markdown on standard output, and words on the way on standard error.

/// The head of the column that says how far repeats of one ratio lie apart: the median, over the
/// jobs, of the highest by the lowest.
pub const REPEATED: &str = "Repeats, highest / lowest";

/// Prints a heading and a sentence or two.
pub fn section(heading: &str, words: &str) {
    println!("### {heading}\n\n{words}\n");
    progress(heading);
}

/// Prints a table: the first column is words, the others are figures.
pub fn table(head: &[&str], rows: &[Vec<String>]) {
    println!("| {} |", head.join(" | "));
    println!("|---|{}", "---:|".repeat(head.len() - 1));
    for row in rows {
        assert_eq!(row.len(), head.len(), "a row has a cell for each column");
        println!("| {} |", row.join(" | "));
    }
    println!();
}

/// Another answer than ours ends the benchmark: one of the two is wrong, and figures for it would
/// say nothing.
pub fn disagreement(words: &str, text: &str) -> ! {
    progress(&format!("{words}\n{text}"));
    std::process::exit(1);
}

pub fn progress(words: &str) {
    eprintln!("bench: {words}");
}
