//! A command's options (`--name value`) and what else stands behind it.

/// Why a command cannot be run.
pub enum Stop {
    /// It was called wrongly.
    Usage(String),
    /// A file or program could not be used.
    Failed(String),
}

impl Stop {
    /// What was to be used, and why it could not be.
    pub fn failed(what: &str, why: impl std::fmt::Display) -> Stop {
        Stop::Failed(format!("{what}: {why}"))
    }
}

pub struct Arguments {
    options: Vec<(String, String)>,
    pub others: Vec<String>,
}

impl Arguments {
    /// Takes options of these names only.
    pub fn read(words: &[String], names: &[&str]) -> Result<Arguments, Stop> {
        let mut arguments = Arguments { options: Vec::new(), others: Vec::new() };
        let mut words = words.iter();
        while let Some(word) = words.next() {
            match word.strip_prefix("--") {
                Some(name) if names.contains(&name) => {
                    let value = words.next().ok_or(Stop::Usage(format!("{word} needs a value")))?;
                    arguments.options.push((name.to_string(), value.clone()));
                }
                Some(_) => return Err(Stop::Usage(format!("{word} is not an option here"))),
                None => arguments.others.push(word.clone()),
            }
        }
        Ok(arguments)
    }

    /// An option's value, the last one given.
    pub fn option(&self, name: &str) -> Option<&str> {
        let given = self.options.iter().rev().find(|(given, _)| given == name)?;
        Some(&given.1)
    }

    pub fn number(&self, name: &str, otherwise: u64) -> Result<u64, Stop> {
        match self.option(name) {
            None => Ok(otherwise),
            Some(value) => {
                value.parse().map_err(|_| Stop::Usage(format!("--{name} {value}: not a number")))
            }
        }
    }
}
