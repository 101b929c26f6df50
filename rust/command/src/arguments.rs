//! The words of a command line: a command's inputs and its options.

use crate::failure::Failure;
use std::ffi::{OsStr, OsString};
use std::fs;
use std::path::PathBuf;

/// What a command takes.
pub struct Form {
    pub name: &'static str,
    /// As the usage names them.
    pub inputs: &'static [&'static str],
    /// Whether the last input may have several words.
    pub many: bool,
    /// Beside `--json`, which all take.
    pub options: &'static [&'static str],
}

/// Options that a word follows.
const WITH_VALUE: [&str; 5] = ["-o", "-m", "--map", "--svg", "--solver"];
const ALONE: [&str; 2] = ["--json", "--search"];

/// Options that name an output.
pub const OUTPUTS: [&str; 3] = ["-o", "-m", "--svg"];

#[derive(Debug)]
pub struct Arguments {
    pub inputs: Vec<OsString>,
    options: Vec<(&'static str, OsString)>,
}

impl Arguments {
    /// Of the words that follow the command's name.
    pub fn parse(form: &Form, words: &[OsString]) -> Result<Arguments, Failure> {
        let mut inputs = Vec::new();
        let mut options = Vec::new();
        let mut words = words.iter();
        while let Some(word) = words.next() {
            if word == "--" {
                inputs.extend(words.by_ref().cloned());
            } else if !is_option(word) {
                inputs.push(word.clone());
            } else {
                let name = option_of(form, word)?;
                let value = if WITH_VALUE.contains(&name) {
                    let value = words.next();
                    value.ok_or_else(|| Failure::bad_input(format!("nothing follows {name}")))?
                } else {
                    word
                };
                options.push((name, value.clone()));
            }
        }
        let arguments = Arguments { inputs, options };
        arguments.accept(form)?;
        Ok(arguments)
    }

    fn accept(&self, form: &Form) -> Result<(), Failure> {
        let Form {
            name, inputs, many, ..
        } = form;
        let given = self.inputs.len();
        if given < inputs.len() {
            let line = format!("{name} needs {}", inputs.join(" and "));
            return Err(Failure::bad_input(line));
        }
        if given > inputs.len() && !many {
            let extra = shown(&self.inputs[inputs.len()]);
            let line = format!("{name} takes {} alone, not {extra}", inputs.join(" and "));
            return Err(Failure::bad_input(line));
        }
        self.accept_options()?;
        self.keep_inputs()?;
        let from_input = self.inputs.iter().chain(self.option("--map"));
        if from_input.filter(|word| *word == "-").count() > 1 {
            let line = "- stands for standard input, which can be read once only";
            return Err(Failure::bad_input(line));
        }
        Ok(())
    }

    /// No option twice, no output named by two, and no JSON among an output's bytes.
    fn accept_options(&self) -> Result<(), Failure> {
        let both = |one: &str, other: &str, what: &OsStr| {
            let line = format!("{one} and {other} both write to {}", shown(what));
            Err(Failure::bad_input(line))
        };
        for (at, (name, value)) in self.options.iter().enumerate() {
            for (other, other_value) in &self.options[..at] {
                if name == other {
                    return Err(Failure::bad_input(format!("{name} stands twice")));
                }
                if OUTPUTS.contains(name) && OUTPUTS.contains(other) && value == other_value {
                    return both(other, name, value);
                }
            }
            if OUTPUTS.contains(name) && value == "-" && self.json() {
                return both(name, "--json", value);
            }
        }
        Ok(())
    }

    /// No output replaces a file that is read.
    fn keep_inputs(&self) -> Result<(), Failure> {
        let real = |word: &OsString| fs::canonicalize(word).ok().filter(|path| path.is_file());
        let inputs = self.inputs.iter().chain(self.option("--map"));
        let inputs: Vec<PathBuf> = inputs.filter_map(real).collect();
        for (name, value) in &self.options {
            if OUTPUTS.contains(name) && real(value).is_some_and(|path| inputs.contains(&path)) {
                let line = format!("{name} would replace the input {}", shown(value));
                return Err(Failure::bad_input(line));
            }
        }
        Ok(())
    }

    pub fn option(&self, name: &str) -> Option<&OsString> {
        let found = self.options.iter().find(|(given, _)| *given == name);
        found.map(|(_, value)| value)
    }

    pub fn json(&self) -> bool {
        self.option("--json").is_some()
    }
}

fn is_option(word: &OsStr) -> bool {
    word.len() > 1 && word.as_encoded_bytes()[0] == b'-'
}

fn option_of(form: &Form, word: &OsStr) -> Result<&'static str, Failure> {
    let known = WITH_VALUE.iter().chain(&ALONE).find(|name| word == **name);
    match known {
        Some(name) if *name == "--json" || form.options.contains(name) => Ok(name),
        _ => {
            let line = format!("{} takes no option {}", form.name, shown(word));
            Err(Failure::bad_input(line))
        }
    }
}

/// The word as one line of text.
pub fn shown(word: &OsStr) -> String {
    if word.is_empty() {
        return "''".to_string();
    }
    let text = word.to_string_lossy();
    let letters = text.chars().map(|letter| match letter {
        letter if letter.is_control() => letter.escape_default().to_string(),
        letter => letter.to_string(),
    });
    letters.collect()
}

/// The word where only text will do.
pub fn text<'a>(what: &str, word: &'a OsStr) -> Result<&'a str, Failure> {
    word.to_str().ok_or_else(|| {
        let line = format!("{what} is not UTF-8: {}", shown(word));
        Failure::bad_input(line)
    })
}

#[cfg(test)]
mod tests {
    use super::*;

    const FORM: Form = Form {
        name: "decode",
        inputs: &["FILE", "K", "MODEL"],
        many: false,
        options: &["-o", "-m"],
    };

    fn parse(line: &str) -> Result<Arguments, String> {
        let words: Vec<OsString> = line.split_whitespace().map(OsString::from).collect();
        Arguments::parse(&FORM, &words).map_err(|failure| failure.line)
    }

    #[test]
    fn options_stand_anywhere() {
        let arguments = parse("a -o t 5 --json -- -x").unwrap();
        assert_eq!(arguments.inputs, ["a", "5", "-x"]);
        assert_eq!(arguments.option("-o").unwrap(), "t");
        assert!(arguments.json() && arguments.option("-m").is_none());
    }

    #[test]
    fn one_line_for_each_fault() {
        for (line, fault) in [
            ("a 5", "decode needs FILE and K and MODEL"),
            ("a 5 b c", "decode takes FILE and K and MODEL alone, not c"),
            ("a 5 b -o", "nothing follows -o"),
            ("a 5 b -x", "decode takes no option -x"),
            ("a 5 b --svg p", "decode takes no option --svg"),
            ("a 5 b -o t -o u", "-o stands twice"),
            ("a 5 b -o t -m t", "-o and -m both write to t"),
            ("a 5 b -o - --json", "-o and --json both write to -"),
            ("a 5 b --json -o -", "-o and --json both write to -"),
            (
                "- 5 -",
                "- stands for standard input, which can be read once only",
            ),
        ] {
            assert_eq!(parse(line).unwrap_err(), fault, "{line}");
        }
    }
}
