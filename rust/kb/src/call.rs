//! The command line, by the table of commands.

use crate::Failure;

/// The table that the script `kb` reads too.
const COMMANDS: &str = include_str!("../commands.txt");

/// A command with its arguments and options.
pub struct Call {
    pub command: String,
    pub arguments: Vec<String>,
    options: Vec<(String, String)>,
}

impl Call {
    pub fn read(words: &[String]) -> Result<Call, Failure> {
        let wrong = || Failure::Usage("wrong arguments; ./kb --help says more".to_string());
        let (command, rest) = words.split_first().ok_or_else(wrong)?;
        let mut call = Call {
            command: command.clone(),
            arguments: Vec::new(),
            options: Vec::new(),
        };
        let mut rest = rest.iter();
        while let Some(word) = rest.next() {
            let value = match word.strip_prefix("--").map(|_| takes_value(command, word)) {
                None => {
                    call.arguments.push(word.clone());
                    continue;
                }
                Some(None) => return Err(wrong()),
                Some(Some(false)) => String::new(),
                Some(Some(true)) => rest.next().ok_or_else(wrong)?.clone(),
            };
            call.options.push((word.clone(), value));
        }
        let fits = forms(command).any(|count| count == call.arguments.len());
        fits.then_some(call).ok_or_else(wrong)
    }

    pub fn has(&self, option: &str) -> bool {
        self.option(option).is_some()
    }

    /// The value of an option.
    pub fn option(&self, option: &str) -> Option<&str> {
        let given = self.options.iter().find(|(name, _)| name == option);
        given.map(|(_, value)| value.as_str())
    }
}

/// Whether a line of the table is a form of a command.
fn is_form(line: &str) -> bool {
    line.starts_with(|c: char| c.is_ascii_lowercase())
}

/// The lines of the table that belong to a command.
fn lines_of(command: &str) -> impl Iterator<Item = &'static str> + '_ {
    let mut here = "";
    COMMANDS.lines().filter(move |line| {
        if is_form(line) {
            here = line.split(' ').next().unwrap_or("");
        }
        here == command
    })
}

/// The number of arguments of each form of a command.
fn forms(command: &str) -> impl Iterator<Item = usize> + '_ {
    let forms = lines_of(command).filter(|line| is_form(line));
    forms.map(|line| line.split(' ').count() - 1)
}

/// Whether an option of a command takes a value; nothing if there is no such option.
fn takes_value(command: &str, option: &str) -> Option<bool> {
    let fields = lines_of(command).map(|line| line.split_whitespace().collect::<Vec<_>>());
    let mut found = fields.filter(|fields| fields.first() == Some(&option));
    let is_value = |word: &str| word.chars().all(|c| c.is_ascii_uppercase());
    found
        .next()
        .map(|fields| fields.get(1).is_some_and(|word| is_value(word)))
}

#[cfg(test)]
mod tests {
    use super::*;

    fn read(line: &str) -> Option<Call> {
        let words: Vec<String> = line.split(' ').map(str::to_string).collect();
        Call::read(&words).ok()
    }

    #[test]
    fn options_and_arguments() {
        let call = read("run --both c.txt t.txt - --numbers").expect("it is right");
        assert_eq!(call.arguments, ["t.txt", "-"]);
        assert_eq!(call.option("--both"), Some("c.txt"));
        assert!(call.has("--numbers"));
        assert_eq!(
            read("kept t c -0 1").map(|call| call.arguments.len()),
            Some(4)
        );
        for count in [2, 3] {
            assert!(read(&format!("dimacs{}", " x".repeat(count))).is_some());
        }
    }

    #[test]
    fn wrong_arguments() {
        for line in [
            "",
            "cards 1",
            "card 1 2",
            "card --both x 1 2 t",
            "run t l --both",
            "check t c --numbers",
        ] {
            assert!(read(line).is_none(), "{line}");
        }
    }
}
