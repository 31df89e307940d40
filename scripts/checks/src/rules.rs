//! The rules that a file of definitions states: docs/RULES.md names the file behind each rule, and the
//! file's head has the numbers of these rules.

use std::collections::BTreeMap;

/// A rule's number: its section, and its place there.
pub type Rule = (u32, u32);

const HEAD: &str = "-- docs/RULES.md ";

/// The rules by the file that states them, as `geometry/specs/Cut`.
pub fn rules_of(page: &str) -> BTreeMap<String, Vec<Rule>> {
    let mut found: BTreeMap<String, Vec<Rule>> = BTreeMap::new();
    let mut rule = None;
    for line in page.lines() {
        rule = number(line).or(rule);
        let Some(rule) = rule else { continue };
        for file in files(line) {
            let rules = found.entry(file).or_default();
            if !rules.contains(&rule) {
                rules.push(rule);
            }
        }
    }
    found
}

/// The number of the rule that starts in the line.
fn number(line: &str) -> Option<Rule> {
    let (number, _) = line.strip_prefix("**")?.split_once("**")?;
    let (section, place) = number.split_once('.')?;
    Some((section.parse().ok()?, place.parse().ok()?))
}

/// The files of definitions that stand in brackets in the line.
fn files(line: &str) -> Vec<String> {
    let bracketed = line
        .split('(')
        .skip(1)
        .filter_map(|rest| rest.split(')').next());
    let files = bracketed.filter(|text| text.contains("/specs/") && !text.contains(' '));
    files.map(str::to_string).collect()
}

/// The line of a file's head that has its rules: three or more in a row as their first and last.
pub fn head_line(rules: &[Rule]) -> String {
    let mut runs: Vec<(Rule, Rule)> = Vec::new();
    for &rule in rules {
        match runs.last_mut() {
            Some((_, last)) if (last.0, last.1 + 1) == rule => *last = rule,
            _ => runs.push((rule, rule)),
        }
    }
    let shown: Vec<String> = runs.iter().map(|&(first, last)| run(first, last)).collect();
    format!("{HEAD}{}\n", shown.join(", "))
}

fn run(first: Rule, last: Rule) -> String {
    let shown = |rule: Rule| format!("{}.{}", rule.0, rule.1);
    match last.1 - first.1 {
        0 => shown(first),
        1 => format!("{}, {}", shown(first), shown(last)),
        _ => format!("{} to {}", shown(first), shown(last)),
    }
}

/// The file with that line at the end of its head comment, in the place of an old one; without one
/// where it states no rule.
pub fn placed(file: &str, line: Option<&str>) -> String {
    let lines = file.split_inclusive('\n');
    let head = lines.take_while(|line| line.starts_with("--"));
    let (mut end, mut text) = (0, String::new());
    for part in head {
        end += part.len();
        if !part.starts_with(HEAD) {
            text.push_str(part);
        }
    }
    text.push_str(line.unwrap_or(""));
    text.push_str(&file[end..]);
    text
}
