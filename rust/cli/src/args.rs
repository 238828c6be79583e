//! The words of a command line: options that take a value, flags, and the names of files.

use crate::{files, number, system, Trouble};

/// An option that a command knows.
#[derive(Clone, Copy)]
pub enum Opt {
    /// One that takes a value: `--flash 2M` or `--flash=2M`.
    Value(&'static str),
    /// One that takes the name of a file that is read.
    Input(&'static str),
    /// One that takes the name of a file that is written.
    Output(&'static str),
    /// The same, where `-` is standard output.
    Stream(&'static str),
    /// One that stands alone.
    Flag(&'static str),
}

impl Opt {
    /// Its name, with the dashes.
    pub fn name(self) -> &'static str {
        match self {
            Opt::Value(name) | Opt::Input(name) | Opt::Output(name) => name,
            Opt::Stream(name) | Opt::Flag(name) => name,
        }
    }
}

/// The words of a command, sorted.
pub struct Args {
    command: &'static str,
    said: Vec<(&'static str, Option<String>)>,
    files: Vec<String>,
}

impl Args {
    /// Sorts the words of a command that knows these options. After `--` every word is the name of a file.
    pub fn parse(
        command: &'static str,
        options: &[&[Opt]],
        words: Vec<String>,
    ) -> Result<Args, Trouble> {
        let mut args = Args {
            command,
            said: Vec::new(),
            files: Vec::new(),
        };
        let mut words = words.into_iter();
        while let Some(word) = words.next() {
            if word == "--" {
                args.files.extend(words);
                break;
            }
            if !word.starts_with('-') || word.len() == 1 {
                args.files.extend(system::named(word));
                continue;
            }
            let (name, joined) = match word.split_once('=') {
                Some((name, value)) if name.starts_with("--") => (name, Some(value.to_string())),
                _ => (word.as_str(), None),
            };
            let known = options
                .iter()
                .copied()
                .flatten()
                .find(|opt| opt.name() == name);
            match known {
                None => return args.wrong(format!("no option '{name}'")),
                Some(Opt::Flag(name)) => args.say(name, None, joined)?,
                Some(Opt::Value(name) | Opt::Input(name) | Opt::Output(name)) => {
                    let value = joined.or_else(|| words.next());
                    args.say_value(name, value)?;
                }
                Some(Opt::Stream(name)) => {
                    let value = joined.or_else(|| words.next());
                    match value.as_deref() {
                        Some("-") => args.say(name, value, None)?,
                        _ => args.say_value(name, value)?,
                    }
                }
            }
        }
        Ok(args)
    }

    fn say_value(&mut self, name: &'static str, value: Option<String>) -> Result<(), Trouble> {
        match value {
            Some(value)
                if value == files::STANDARD || !value.is_empty() && !value.starts_with('-') =>
            {
                self.say(name, Some(value), None)
            }
            _ => self.wrong(format!("{name} wants a value")),
        }
    }

    fn say(
        &mut self,
        name: &'static str,
        value: Option<String>,
        stray: Option<String>,
    ) -> Result<(), Trouble> {
        if stray.is_some() {
            return self.wrong(format!("{name} takes no value"));
        }
        if self.is_said(name) {
            return self.wrong(format!("{name} is said twice"));
        }
        self.said.push((name, value));
        Ok(())
    }

    /// Whether an option is there, with a value or without.
    pub fn is_said(&self, name: &str) -> bool {
        self.said.iter().any(|(said, _)| *said == name)
    }

    /// Whether one of these options is there.
    pub fn says_any(&self, options: &[Opt]) -> bool {
        options.iter().any(|opt| self.is_said(opt.name()))
    }

    /// Whether a flag is there.
    pub fn flag(&self, name: &str) -> bool {
        self.is_said(name)
    }

    /// The value of an option, where it is there.
    pub fn value(&self, name: &str) -> Option<&str> {
        let (_, value) = self.said.iter().find(|(said, _)| *said == name)?;
        value.as_deref()
    }

    /// The value of an option that must be there.
    pub fn needed(&self, name: &str, what: &str) -> Result<&str, Trouble> {
        match self.value(name) {
            Some(value) => Ok(value),
            None => self.wrong(format!("{name} is missing: {what}")),
        }
    }

    /// The value of an option as a number.
    pub fn number(&self, name: &str) -> Result<Option<u64>, Trouble> {
        let Some(text) = self.value(name) else {
            return Ok(None);
        };
        match number::parse(text) {
            Some(x) => Ok(Some(x)),
            None => self.wrong(format!(
                "{name} wants a number, such as 4096, 0x1000, 64K or 2M, and not '{text}'"
            )),
        }
    }

    /// Those of these options that are said, as words of a command line.
    pub fn said_of(&self, options: &[Opt]) -> Vec<String> {
        let mut words = Vec::new();
        for (name, value) in &self.said {
            if options.iter().any(|opt| opt.name() == *name) {
                words.push(name.to_string());
                words.extend(value.as_deref().map(files::quoted_name));
            }
        }
        words
    }

    /// The same as they were said, for a program that is run with them.
    pub fn words_of(&self, options: &[Opt]) -> Vec<String> {
        let said = self.said.iter();
        let said = said.filter(|(name, _)| options.iter().any(|opt| opt.name() == *name));
        said.flat_map(|(name, value)| std::iter::once(name.to_string()).chain(value.clone()))
            .collect()
    }

    /// Refuses a file that is written and is one that is read, or another that is written. All words but the first few, which are a command's
    /// own, are names of files that are read.
    pub fn apart(&self, options: &[&[Opt]], verbs: usize) -> Result<(), Trouble> {
        let all = options.iter().copied().flatten();
        let (mut inputs, mut outputs) = (Vec::new(), Vec::new());
        for opt in all {
            match opt {
                Opt::Input(name) => inputs.extend(self.value(name)),
                Opt::Output(name) => outputs.extend(self.value(name)),
                Opt::Stream(name) => {
                    outputs.extend(self.value(name).filter(|name| *name != "-"));
                }
                Opt::Value(_) | Opt::Flag(_) => {}
            }
        }
        inputs.extend(self.files.iter().skip(verbs).map(String::as_str));
        files::apart(&outputs, &inputs)
    }

    /// The names of files: exactly so many.
    pub fn files<const N: usize>(&self, what: [&str; N]) -> Result<[&str; N], Trouble> {
        let names: Vec<&str> = self.files.iter().map(String::as_str).collect();
        match <[&str; N]>::try_from(names) {
            Ok(files) => Ok(files),
            Err(names) if names.len() < N => {
                self.wrong(format!("{} is missing", what[names.len()]))
            }
            Err(names) => self.wrong(format!("'{}' is one word too many", names[N])),
        }
    }

    /// The names of files: one or more.
    pub fn some_files(&self, what: &str) -> Result<Vec<&str>, Trouble> {
        match self.files.as_slice() {
            [] => self.wrong(format!("{what} is missing")),
            names => Ok(names.iter().map(String::as_str).collect()),
        }
    }

    /// A wrong command line, in one sentence.
    pub fn wrong<T>(&self, why: impl AsRef<str>) -> Result<T, Trouble> {
        Err(Trouble(format!(
            "{0}: {1}; `vantorel {0} --help` says how",
            self.command,
            why.as_ref()
        )))
    }
}

#[cfg(test)]
mod tests {
    use super::*;

    const KNOWN: &[Opt] = &[Opt::Value("--flash"), Opt::Value("-o"), Opt::Flag("-v")];

    fn parse(line: &str) -> Result<Args, String> {
        let words = line.split_whitespace().map(String::from).collect();
        Args::parse("load", &[KNOWN], words).map_err(|Trouble(why)| why)
    }

    #[test]
    fn words_are_sorted() {
        for line in [
            "a.uf2 --flash 2M -v",
            "-v --flash=2M a.uf2",
            "-v --flash 2M -- a.uf2",
        ] {
            let args = parse(line).expect(line);
            assert_eq!(args.number("--flash").ok().flatten(), Some(2_097_152));
            assert!(args.flag("-v") && !args.flag("--json"));
            assert_eq!(args.files(["FILE"]).ok(), Some(["a.uf2"]));
        }
        let args = parse("-- -v").expect("a file");
        assert_eq!(args.files(["FILE"]).ok(), Some(["-v"]));
    }

    #[test]
    fn wrong_words() {
        for (line, why) in [
            ("--flash", "--flash wants a value"),
            ("--flash -v", "--flash wants a value"),
            ("--flash=", "--flash wants a value"),
            ("-v=1", "no option '-v=1'"),
            ("-v -v", "-v is said twice"),
            ("--flash 1 --flash 2", "--flash is said twice"),
            ("--what", "no option '--what'"),
        ] {
            let told = parse(line).err().expect(line);
            assert!(told.contains(why), "{line}: {told}");
        }
        let args = parse("a b --flash x").expect("words");
        assert!(args.files(["FILE"]).is_err());
        assert!(args.files(["A", "B", "C"]).is_err());
        assert!(args.number("--flash").is_err());
    }
}
