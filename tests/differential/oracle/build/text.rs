//! Taking items out of a source file, and changing text that must be there.

/// Replaces `find`, which must stand in `text` exactly `times` times.
pub fn substitute(name: &str, text: &str, find: &str, replace: &str, times: usize) -> String {
    let found = text.matches(find).count();
    assert!(found == times, "{name}: {find:?} must match {times} times and matches {found} times");
    text.replace(find, replace)
}

/// The lines of the item whose first line starts with `start`, with the
/// comments and attributes above it.
pub fn take_item(name: &str, text: &str, start: &str) -> String {
    let lines: Vec<&str> = text.lines().collect();
    let firsts: Vec<usize> = (0..lines.len()).filter(|&i| lines[i].starts_with(start)).collect();
    assert!(firsts.len() == 1, "{name}: {start:?} must start one line and starts {}", firsts.len());
    let indent = &start[..start.len() - start.trim_start().len()];
    let belongs = |line: &str| {
        line.strip_prefix(indent)
            .is_some_and(|rest| rest.starts_with("///") || rest.starts_with("#["))
    };
    let mut first = firsts[0];
    while first > 0 && belongs(lines[first - 1]) {
        first -= 1;
    }
    let end = format!("{indent}}}");
    let last = (firsts[0]..lines.len())
        .find(|&i| lines[i] == end)
        .unwrap_or_else(|| panic!("{name}: {start:?} has no closing brace"));
    lines[first..=last].join("\n") + "\n"
}
