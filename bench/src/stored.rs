//! The jobs that are stored as texts in bench/jobs, because they were found by search and no
//! generator makes them again.

use crate::job::Job;

const PLACE: &str = "bench/jobs";

/// The job of a file, named as the file is.
pub fn text(path: &str) -> Job {
    let text = std::fs::read_to_string(path).unwrap_or_else(|error| panic!("{path}: {error}"));
    let name = path
        .rsplit('/')
        .next()
        .unwrap_or(path)
        .trim_end_matches(".job");
    Job::from_text(name, &text).unwrap_or_else(|| panic!("{path}: the library refuses it"))
}

/// The stored job of that name.
pub fn job(name: &str) -> Job {
    text(&format!("{PLACE}/{name}.job"))
}

/// Every stored job whose name starts so, sorted by name.
pub fn jobs(start: &str) -> Vec<Job> {
    let entries = std::fs::read_dir(PLACE).unwrap_or_else(|error| panic!("{PLACE}: {error}"));
    let files = entries.filter_map(|entry| entry.ok()?.file_name().into_string().ok());
    let mut names: Vec<String> = files
        .filter_map(|file| Some(file.strip_suffix(".job")?.to_string()))
        .collect();
    names.retain(|name| name.starts_with(start));
    names.sort();
    names.iter().map(|name| job(name)).collect()
}
