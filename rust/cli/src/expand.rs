//! `astrolabe expand`: a solution of a model reduced with ties, with the value of each variable that was put away.

use crate::command::{Command, run_all};
use crate::csv;
use crate::explain::counted;
use crate::failure::Failure;
use crate::files;
use crate::json::Json;
use crate::report::Report;
use crate::tied::{self, NamedTie};
use astrolabe::Ties;
use std::path::{Path, PathBuf};

pub const COMMAND: Command = Command {
    name: "expand",
    usage: "expand TIES SOLUTION [-o OUT] [--json]",
    about: "read a solution of a model reduced with --ties back as one of the raw model",
    options: &["-o", "--output"],
    run: |options| {
        let [list, solution] = &options.inputs[..] else {
            return Err(Failure::Unreadable("expand takes a list of ties and a solution".into()));
        };
        let output = options.output.clone().unwrap_or(PathBuf::from("-"));
        if options.inputs.iter().any(|input| files::same(input, &output)) {
            let sentence = format!("{} is read, and would be written over", output.display());
            return Err(Failure::Unreadable(sentence));
        }
        let files = [(solution.clone(), (list.clone(), solution.clone(), output.clone()))];
        let aside = files::is_stream(&output);
        Ok(run_all(&files, options, aside, |(list, solution, output)| {
            expand(list, solution, output)
        }))
    },
};

fn expand(list: &Path, solution: &Path, output: &Path) -> Result<Report, Failure> {
    let ties = tied::read(list)?;
    let failed = |what: String| {
        Failure::Unreadable(format!("cannot read {}: {what}", files::shown(solution)))
    };
    let text = String::from_utf8_lossy(&files::read(solution)?).into_owned();
    let mut points = Points::parsed(&text).map_err(failed)?;
    points.expand(&ties).map_err(failed)?;
    files::write(output, points.text().as_bytes())?;
    let (count, variables) =
        (counted(points.values.len(), "solution"), counted(ties.len(), "variable"));
    let text = format!("{count}, {variables} put back -> {}", files::shown_output(output));
    let fields = vec![
        ("result", Json::text("expanded")),
        ("output", Json::text(output.display().to_string())),
        ("solutions", Json::count(points.values.len())),
        ("tied", Json::count(ties.len())),
    ];
    Ok(Report::done(text, fields))
}

/// Solutions by the names of their variables: one, as lines of name and value, or some, as CSV under a line of names.
#[derive(Clone, Debug, PartialEq, Eq)]
struct Points {
    names: Vec<String>,
    values: Vec<Vec<i32>>,
    is_csv: bool,
}

impl Points {
    fn parsed(text: &str) -> Result<Self, String> {
        let said = |line| if str::starts_with(line, "#") { "" } else { line };
        let text = text.lines().map(said).collect::<Vec<_>>().join("\n");
        match csv::named_values(&text) {
            Some(pairs) => Points::of_pairs(&pairs),
            None => Points::of_csv(&text),
        }
    }

    fn of_csv(text: &str) -> Result<Self, String> {
        let mut lines = csv::lines(text);
        let (_, names) = lines.next().unwrap_or_default();
        let mut values = vec![];
        for (at, fields) in lines {
            if fields.len() != names.len() {
                return Err(format!("line {at} has {} numbers of {}", fields.len(), names.len()));
            }
            values.push(fields.iter().map(|word| whole(word)).collect::<Result<_, _>>()?);
        }
        Ok(Points { names, values, is_csv: true })
    }

    fn of_pairs(pairs: &[(String, Option<String>)]) -> Result<Self, String> {
        let names = pairs.iter().map(|(name, _)| name.clone()).collect();
        let value = |(name, value): &(String, Option<String>)| match value {
            Some(word) => whole(word),
            None => Err(format!("{name} has no value after it")),
        };
        let values = vec![pairs.iter().map(value).collect::<Result<_, _>>()?];
        Ok(Points { names, values, is_csv: false })
    }

    /// Gives each tied variable its value, whatever the solution has for it.
    fn expand(&mut self, ties: &[NamedTie]) -> Result<(), String> {
        for tie in ties.iter().filter(|tie| !self.names.contains(&tie.variable)).collect::<Vec<_>>()
        {
            self.names.push(tie.variable.clone());
            self.values.iter_mut().for_each(|point| point.push(0));
        }
        let list = self.list(ties)?;
        for point in &mut self.values {
            list.expand(point).map_err(|circle| {
                format!("the ties of {} lead into a circle", self.names[circle.variable])
            })?;
        }
        Ok(())
    }

    /// The list of ties over the names of the solution.
    fn list(&self, ties: &[NamedTie]) -> Result<Ties, String> {
        let place = |name: &String| {
            let found = self.names.iter().position(|known| known == name);
            found.ok_or_else(|| format!("it has no value for {name}"))
        };
        let mut places = vec![0; self.names.len()];
        for tie in ties {
            let literal = 2 * place(&tie.to)? + usize::from(tie.equal);
            places[place(&tie.variable)?] =
                u16::try_from(literal + 1).map_err(|_| "it has too many variables".to_string())?;
        }
        Ties::from_places(places).map_err(|refusal| refusal.to_string())
    }

    fn text(&self) -> String {
        if !self.is_csv {
            let pairs = self.names.iter().zip(self.values.iter().flatten());
            return pairs.map(|(name, value)| format!("{name} {value}\n")).collect();
        }
        let line = |words: Vec<String>| words.join(",") + "\n";
        let points =
            self.values.iter().map(|point| line(point.iter().map(i32::to_string).collect()));
        line(self.names.clone()) + &points.collect::<String>()
    }
}

/// A whole number, also as a solver writes it: 1, 1.0, 1e0.
fn whole(word: &str) -> Result<i32, String> {
    let value: f64 = word.parse().map_err(|_| format!("{word} is no number"))?;
    let is_whole = value == value.trunc() && value.abs() <= f64::from(i32::MAX);
    if is_whole { Ok(value as i32) } else { Err(format!("{word} is no whole number of 32 bits")) }
}

#[cfg(test)]
mod tests {
    use super::*;

    fn ties() -> [NamedTie; 2] {
        let tie = |variable: &str, to: &str, equal| NamedTie {
            variable: variable.to_string(),
            to: to.to_string(),
            equal,
        };
        [tie("z", "y", false), tie("y", "x", true)]
    }

    fn expanded(text: &str) -> Result<String, String> {
        let mut points = Points::parsed(text)?;
        points.expand(&ties())?;
        Ok(points.text())
    }

    #[test]
    fn a_solution_gets_what_was_put_away() {
        assert_eq!(expanded("# a comment\nx 1.0\nz 7\n").unwrap(), "x 1\nz 0\ny 1\n");
        assert_eq!(expanded("y,x\n5,0\n5,1\n").unwrap(), "y,x,z\n0,0,1\n1,1,0\n");
        let of_cbc = "Optimal - objective value 7.50000000\n      0 x                      1                     7.5\n";
        assert_eq!(expanded(of_cbc).unwrap(), "x 1\nz 0\ny 1\n");
    }

    #[test]
    fn what_cannot_be_read_is_told() {
        let told = ["y 1", "x 0.5", "x 1\ny", "x,y\n1"].map(|text| expanded(text).unwrap_err());
        assert_eq!(told[0], "it has no value for x");
        assert_eq!(told[1], "0.5 is no whole number of 32 bits");
        assert_eq!(told[2], "y has no value after it");
        assert_eq!(told[3], "line 2 has 1 numbers of 2");
        let mut circle = ties();
        circle[1].to = "z".to_string();
        let told = Points::parsed("x 1").unwrap().expand(&circle).unwrap_err();
        assert_eq!(told, "the ties of z lead into a circle");
    }
}
