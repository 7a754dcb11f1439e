//! Splits a command's arguments into options and words.

/// The options that a command takes.
pub struct Form {
    /// Those with a value, `--name VALUE` or `--name=VALUE`.
    pub valued: &'static [&'static str],
    pub flags: &'static [&'static str],
}

/// Behind it everything is a word.
pub const END: &str = "--";

pub struct Options {
    values: Vec<(String, String)>,
    flags: Vec<String>,
    /// What is no option, in order.
    words: Vec<String>,
}

impl Options {
    pub fn parse(arguments: &[String], form: &Form) -> Result<Options, String> {
        let mut options = Options {
            values: Vec::new(),
            flags: Vec::new(),
            words: Vec::new(),
        };
        let mut arguments = arguments.iter();
        while let Some(argument) = arguments.next() {
            if argument == END {
                options.words.extend(arguments.cloned());
                break;
            }
            if !argument.starts_with('-') || argument == "-" {
                options.words.push(argument.clone());
                continue;
            }
            let (name, joined) = split(argument);
            if form.flags.contains(&name) && joined.is_none() {
                options.flags.push(name.to_string());
            } else if form.valued.contains(&name) {
                let value = joined.or_else(|| arguments.next().cloned());
                let value = value.ok_or_else(|| format!("{name} needs a value"))?;
                options.values.push((name.to_string(), value));
            } else {
                return Err(format!("there is no option `{argument}` here"));
            }
        }
        Ok(options)
    }

    pub fn words(&self) -> Vec<&str> {
        self.words.iter().map(String::as_str).collect()
    }

    /// The value of an option that may be given once.
    pub fn value(&self, name: &'static str) -> Result<Option<&str>, String> {
        let mut values = self.values_of(name);
        let first = values.next();
        match values.next() {
            None => Ok(first),
            Some(_) => Err(format!("{name} is given twice")),
        }
    }

    pub fn needed(&self, name: &'static str) -> Result<&str, String> {
        self.value(name)?
            .ok_or_else(|| format!("{name} is missing"))
    }

    /// The values of an option that may be given several times.
    pub fn values_of(&self, name: &'static str) -> impl Iterator<Item = &str> {
        let named = self.values.iter().filter(move |(given, _)| given == name);
        named.map(|(_, value)| value.as_str())
    }

    pub fn has(&self, flag: &str) -> bool {
        self.flags.iter().any(|given| given == flag)
    }
}

/// A long option's name, and the value joined to it.
fn split(argument: &str) -> (&str, Option<String>) {
    match argument.split_once('=') {
        Some((name, value)) if name.starts_with("--") => (name, Some(value.to_string())),
        _ => (argument, None),
    }
}

#[cfg(test)]
mod tests {
    use super::*;

    const FORM: Form = Form {
        valued: &["--id", "-t"],
        flags: &["-d"],
    };

    fn parsed(text: &str) -> Result<Options, String> {
        let arguments: Vec<String> = text.split(' ').map(String::from).collect();
        Options::parse(&arguments, &FORM)
    }

    #[test]
    fn options_and_words_may_be_mixed() {
        let options = parsed("a --id=x=y -d b=c - -t -1").expect("these are options");
        assert_eq!(options.words(), ["a", "b=c", "-"]);
        assert_eq!(options.needed("--id"), Ok("x=y"));
        assert_eq!(options.value("-t"), Ok(Some("-1")));
        assert!(options.has("-d") && !options.has("-t"));
    }

    #[test]
    fn behind_two_dashes_everything_is_a_word() {
        let options = parsed("a -d -- -t -- --id=x").expect("options and words");
        assert_eq!(options.words(), ["a", "-t", "--", "--id=x"]);
        assert!(options.has("-d"));
    }

    #[test]
    fn options_that_are_none() {
        for bad in ["-x", "--id", "-t", "--idx 1", "-d=1", "-t=1"] {
            assert!(parsed(bad).is_err(), "{bad}");
        }
        let twice = parsed("--id a --id b").expect("these are options");
        assert!(twice.value("--id").is_err());
        assert!(twice.needed("-t").is_err());
        assert_eq!(twice.values_of("--id").count(), 2);
    }
}
