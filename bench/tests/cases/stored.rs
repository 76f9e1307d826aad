//! A data file and its stored output, and the differences between what is printed and what is stored.

use crate::planner::Planner;
use crate::run::{self, Reader};
use std::collections::BTreeMap;
use std::fs;
use std::path::Path;

/// A data file.
pub struct Data {
    pub name: &'static str,
    pub cases: &'static str,
    pub output: &'static str,
}

impl Data {
    /// Runs the cases and fails where the output is not the stored one.
    pub fn check(&self, planner: Planner) {
        self.check_with(planner, Reader::Reading);
    }

    /// The same, with every plan file read by the sharing.
    pub fn check_by_sharing(&self, planner: Planner) {
        self.check_with(planner, Reader::Sharing);
    }

    /// Where the output is not the stored one, it is kept in a file, which the failure names.
    fn check_with(&self, planner: Planner, reader: Reader) {
        let printed = run::output(planner, reader, self.cases)
            .unwrap_or_else(|words| panic!("{}.txt, {words}", self.name));
        if printed == self.output {
            return;
        }
        let file = format!("{}.{planner:?}.{reader:?}.out", self.name);
        let path = Path::new(env!("CARGO_TARGET_TMPDIR")).join(file);
        fs::write(&path, &printed).expect("the output is kept");
        panic!(
            "{}.out is not what is printed, which stands in {}\n{}",
            self.name,
            path.display(),
            differences(&printed, self.output)
        );
    }
}

/// The cases of an output by their names. The first line of a case has its name and the answer, its other lines begin with a space.
fn by_name(output: &str) -> BTreeMap<&str, String> {
    let mut cases: BTreeMap<&str, String> = BTreeMap::new();
    let mut name = "";
    for line in output.lines() {
        if !line.starts_with(' ') {
            name = line.split(": ").next().unwrap_or(line);
        }
        let text = cases.entry(name).or_default();
        text.push_str(line);
        text.push('\n');
    }
    cases
}

/// The cases that are not printed as they are stored, each with its name and both texts.
fn differences(printed: &str, stored: &str) -> String {
    let (printed, stored) = (by_name(printed), by_name(stored));
    let mut names: Vec<&str> = printed.keys().chain(stored.keys()).copied().collect();
    names.sort_unstable();
    names.dedup();
    names.retain(|name| printed.get(name) != stored.get(name));
    if names.is_empty() {
        return "the cases are in another order".to_string();
    }
    let text = |cases: &BTreeMap<&str, String>, name| match cases.get(name) {
        Some(text) => text.clone(),
        None => "nothing\n".to_string(),
    };
    let described = names.into_iter().map(|name| {
        let (printed, stored) = (text(&printed, name), text(&stored, name));
        format!("case {name}\nprinted:\n{printed}stored:\n{stored}")
    });
    described.collect()
}
