//! Lines of fields with commas between, and lines of a name and a value, as solvers write a solution.

/// The lines that are not blank, each with its number from 1 and its fields without blanks and quotes around them.
pub fn lines(text: &str) -> impl Iterator<Item = (usize, Vec<String>)> {
    let lines = text.lines().enumerate().filter(|(_, line)| !line.trim().is_empty());
    lines.map(|(at, line)| (at + 1, fields(line)))
}

/// The name and the value of each line that is not blank, where the first one has words and no comma; the value is the last
/// word, or in Cbc's lines the one before the cost. A line without a value has none.
pub fn named_values(text: &str) -> Option<Vec<(String, Option<String>)>> {
    let mut lines = text.lines().map(str::trim).filter(|line| !line.is_empty()).peekable();
    let first =
        lines.peek().filter(|line| !line.contains(',') && line.contains(char::is_whitespace))?;
    if first.contains(" - objective value ") {
        return Some(lines.skip(1).map(of_cbc).collect());
    }
    let pair = |line: &str| match line.rsplit_once(char::is_whitespace) {
        Some((name, value)) => (name.trim_end().to_string(), Some(value.to_string())),
        None => (line.to_string(), None),
    };
    Some(lines.map(pair).collect())
}

/// Number, name, value and cost.
fn of_cbc(line: &str) -> (String, Option<String>) {
    match line.split_whitespace().collect::<Vec<_>>()[..] {
        [.., name, value, _] => (name.to_string(), Some(value.to_string())),
        _ => (line.to_string(), None),
    }
}

fn fields(line: &str) -> Vec<String> {
    line.split(',').map(|field| field.trim().trim_matches('"').to_string()).collect()
}
