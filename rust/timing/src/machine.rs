//! The machine that a time was taken on.

use std::fs;
use std::thread;

/// The processor's name, as far as the system tells it, and how many cores a program may use.
pub fn machine() -> String {
    let table = fs::read_to_string("/proc/cpuinfo").unwrap_or_default();
    let cores = thread::available_parallelism().map_or(1, usize::from);
    format!("{}, {cores} cores", model(&table).unwrap_or("processor unknown"))
}

fn model(table: &str) -> Option<&str> {
    let (_, name) = table.lines().find(|line| line.starts_with("model name"))?.split_once(':')?;
    Some(name.trim())
}

#[cfg(test)]
mod tests {
    use super::model;

    #[test]
    fn the_first_name_counts() {
        assert_eq!(model("processor\t: 0\nmodel name\t: Some CPU\nmodel name\t: Other\n"), Some("Some CPU"));
        assert_eq!(model("processor\t: 0\n"), None);
    }
}
