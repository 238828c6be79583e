//! Manual pages and completions for shells, made from what `--help` prints: usage lines first, then paragraphs with an empty line between them. A paragraph
//! whose lines begin with `  -` is a list of options, one that begins with four spaces is an example.

use crate::args::Opt;
use crate::{Command, COMMANDS};
use std::fmt::Write;

/// An option of a page of help.
struct Line {
    name: String,
    /// The word for its value, where it takes one.
    value: Option<String>,
    /// Whether the value is the name of a file.
    is_file: bool,
    does: String,
}

/// A paragraph of a page of help.
enum Part {
    Text(String),
    Options(Vec<Line>),
    Example(Vec<String>),
}

/// A page of help, read.
struct Page {
    usage: Vec<String>,
    parts: Vec<Part>,
}

/// The options of a line and its continuations: `--arm --riscv  the architectures ..` has two.
fn options_of(command: &Command, text: &str) -> Vec<Line> {
    let known = |word: &str| {
        let all = command.options.iter().copied().flatten();
        all.copied().find(|opt| opt.name() == word)
    };
    let mut words = text.split_whitespace().peekable();
    let mut found: Vec<Line> = Vec::new();
    while let Some(opt) = words.peek().and_then(|word| known(word)) {
        words.next();
        let value = match opt {
            Opt::Flag(_) => None,
            _ => words.next().map(String::from),
        };
        found.push(Line {
            name: opt.name().into(),
            value,
            is_file: matches!(opt, Opt::Input(_) | Opt::Output(_) | Opt::Stream(_)),
            does: String::new(),
        });
    }
    let does = words.collect::<Vec<&str>>().join(" ");
    for line in &mut found {
        line.does.clone_from(&does);
    }
    found
}

/// A page of help with an empty line before each list of options.
fn apart(text: &str) -> String {
    let mut out = String::new();
    let mut before = "";
    for line in text.lines() {
        if line.starts_with("  -") && !before.starts_with("  ") && !before.is_empty() {
            out.push('\n');
        }
        out.push_str(line);
        out.push('\n');
        before = line;
    }
    out
}

fn page(command: &Command) -> Page {
    let text = apart(&command.help.concat());
    let mut paragraphs = text.trim_end().split("\n\n");
    let usage = paragraphs.next().unwrap_or_default();
    let part = |paragraph: &str| {
        if paragraph.starts_with("    ") {
            let lines = paragraph.lines();
            let lines = lines.map(|line| line.strip_prefix("    ").unwrap_or(line));
            return Part::Example(lines.map(String::from).collect());
        }
        if !paragraph.starts_with("  -") {
            return Part::Text(
                paragraph
                    .split_whitespace()
                    .collect::<Vec<&str>>()
                    .join(" "),
            );
        }
        let each = paragraph.split("\n  -").enumerate();
        let each = each.map(|(k, text)| match k {
            0 => text.into(),
            _ => format!("-{text}"),
        });
        Part::Options(
            each.flat_map(|text: String| options_of(command, &text))
                .collect(),
        )
    };
    Page {
        usage: usage.lines().map(String::from).collect(),
        parts: paragraphs.map(part).collect(),
    }
}

/// Every option that a page of help has.
fn options(command: &Command) -> Vec<Line> {
    let parts = page(command).parts.into_iter();
    parts
        .flat_map(|part| match part {
            Part::Options(lines) => lines,
            _ => Vec::new(),
        })
        .collect()
}

/// The words that may follow a command: `show` and `pack` of `vantorel settings show STORE`.
fn verbs(command: &Command) -> Vec<String> {
    let is_verb = |word: &&str| word.chars().all(|c| c.is_ascii_lowercase());
    let usage = page(command).usage;
    let words = usage.iter().filter_map(|line| {
        let mut words = line.split_whitespace();
        words.next().filter(|word| *word == "vantorel")?;
        words.nth(1).filter(is_verb).map(String::from)
    });
    words.collect()
}

/// The words that a value can be: those of its name in lower case, or the families; none where it is a number or a file.
fn choices(value: &str) -> Option<String> {
    if value == "FAMILY" {
        return Some("rp2040 absolute data arm-s riscv arm-ns".into());
    }
    let small = |c: char| c.is_ascii_lowercase() || c.is_ascii_digit() || c == '|' || c == '-';
    value.chars().all(small).then(|| value.replace('|', " "))
}

/// Text for roff.
fn roff(text: &str) -> String {
    let text = text.replace('\\', "\\e").replace('-', "\\-");
    match text.starts_with(['.', '\'']) {
        true => format!("\\&{text}"),
        false => text,
    }
}

fn head(out: &mut String, name: &str, does: &str, day: &str) {
    let title = roff(&name.to_uppercase());
    let version = env!("CARGO_PKG_VERSION");
    let _ = writeln!(
        out,
        ".TH {title} 1 {day} \"vantorel {version}\"\n.SH NAME\n{} \\- {}",
        roff(name),
        roff(does)
    );
}

fn verbatim(out: &mut String, lines: &[String]) {
    out.push_str(".nf\n");
    for line in lines {
        let _ = writeln!(out, "{}", roff(line));
    }
    out.push_str(".fi\n");
}

/// The manual page of a command.
fn manual(command: &Command, day: &str) -> String {
    let mut out = String::new();
    let Page { usage, parts } = page(command);
    head(
        &mut out,
        &format!("vantorel-{}", command.name),
        command.does,
        day,
    );
    out.push_str(".SH SYNOPSIS\n");
    verbatim(&mut out, &usage);
    out.push_str(".SH DESCRIPTION\n");
    for (k, part) in parts.iter().enumerate() {
        match part {
            Part::Text(text) => {
                out.push_str(if k > 0 { ".PP\n" } else { "" });
                let _ = writeln!(out, "{}", roff(text));
            }
            Part::Options(lines) => {
                for line in lines {
                    let value = line
                        .value
                        .as_deref()
                        .map(|value| format!(" \\fI{}\\fR", roff(value)));
                    let value = value.unwrap_or_default();
                    let _ = writeln!(
                        out,
                        ".TP\n\\fB{}\\fR{value}\n{}",
                        roff(&line.name),
                        roff(&line.does)
                    );
                }
            }
            Part::Example(lines) => {
                out.push_str(".PP\n.RS\n");
                verbatim(&mut out, lines);
                out.push_str(".RE\n");
            }
        }
    }
    out.push_str(".SH SEE ALSO\n\\fBvantorel\\fR(1)\n");
    out
}

/// The manual page of the tool.
fn tool(day: &str) -> String {
    let mut out = String::new();
    head(
        &mut out,
        "vantorel",
        "UF2 and Universal Hex files, by a proved library",
        day,
    );
    out.push_str(".SH SYNOPSIS\n\\fBvantorel\\fR \\fICOMMAND\\fR [\\fIWORDS\\fR]\n.PP\n\\fBvantorel\\fR \\fB\\-\\-help\\fR | \\fB\\-\\-version\\fR\n.SH COMMANDS\n");
    for command in COMMANDS {
        let (name, does) = (command.name, roff(command.does));
        let _ = writeln!(out, ".TP\n\\fBvantorel\\-{name}\\fR(1)\n{does}");
    }
    out.push_str(".SH EXIT STATUS\n.TP\n0\nthe job is whole\n.TP\n1\nit is not, and the last sentence says what is missing\n.TP\n2\na wrong command line, or a file that cannot be read or written\n");
    out
}

/// Every file: its name and its text. The day of the manual pages is given, so that the same sources make the same pages.
pub fn all(day: &str) -> Vec<(String, String)> {
    let mut files = vec![("man/vantorel.1".into(), tool(day))];
    for command in COMMANDS {
        files.push((
            format!("man/vantorel-{}.1", command.name),
            manual(command, day),
        ));
    }
    files.push(("completions/vantorel.bash".into(), bash()));
    files.push(("completions/_vantorel".into(), zsh()));
    files.push(("completions/vantorel.fish".into(), fish()));
    files.push(("completions/vantorel.ps1".into(), powershell()));
    files
}

fn names() -> String {
    let names = COMMANDS.iter().map(|command| command.name);
    names.collect::<Vec<&str>>().join(" ")
}

/// The names of a command's options.
fn flags(lines: &[Line]) -> String {
    let names = lines.iter().map(|line| line.name.as_str());
    names.chain(["--help"]).collect::<Vec<&str>>().join(" ")
}

const BASH_HEAD: &str = "\
# Completions of vantorel for bash, written from its help.
_vantorel() {
    local cur=${COMP_WORDS[COMP_CWORD]} prev=${COMP_WORDS[COMP_CWORD-1]} words='' any=''
    COMPREPLY=()
";

const BASH_END: &str = "
    esac
    mapfile -t COMPREPLY < <(compgen -W \"$words\" -- \"$cur\")
    [ -n \"$any\" ] || mapfile -t -O \"${#COMPREPLY[@]}\" COMPREPLY < <(compgen -f -- \"$cur\")
}
complete -o filenames -F _vantorel vantorel
";

fn bash() -> String {
    let mut out = String::from(BASH_HEAD);
    let _ = write!(out, "    if [ \"$COMP_CWORD\" -eq 1 ]; then\n        mapfile -t COMPREPLY < <(compgen -W '{} help --help --version' -- \"$cur\")\n        return\n    fi\n    case ${{COMP_WORDS[1]}}:$prev:$cur in", names());
    for command in COMMANDS {
        let (lines, name) = (options(command), command.name);
        for line in &lines {
            if let Some(words) = line.value.as_deref().and_then(choices) {
                let _ = write!(
                    out,
                    "\n    {name}:{}:*) words='{words}' any=no ;;",
                    line.name
                );
            }
        }
        let _ = write!(
            out,
            "\n    {name}:*:-*) words='{}' any=no ;;",
            flags(&lines)
        );
        let verbs = verbs(command).join(" ");
        if !verbs.is_empty() {
            let _ = write!(out, "\n    {name}:{name}:*) words='{verbs}' ;;");
        }
    }
    let _ = write!(out, "\n    help:*) words='{}' any=no ;;", names());
    out.push_str(BASH_END);
    out
}

/// Text between single quotes of zsh, in a description.
fn quoted(text: &str) -> String {
    let text = text.replace('\'', "'\\''");
    text.replace('[', "\\[")
        .replace(']', "\\]")
        .replace(':', "\\:")
}

const ZSH_HEAD: &str = "\
#compdef vantorel
# Completions of vantorel for zsh, written from its help.
_vantorel() {
    local -a commands
    commands=(
";

const ZSH_MIDDLE: &str = "    )
    if (( CURRENT == 2 )); then
        _describe command commands
        return
    fi
    local name=$words[2]
    shift words
    (( CURRENT-- ))
    case $name in
";

fn zsh() -> String {
    let mut out = String::from(ZSH_HEAD);
    for command in COMMANDS {
        let _ = writeln!(out, "        '{}:{}'", command.name, quoted(command.does));
    }
    out.push_str(ZSH_MIDDLE);
    for command in COMMANDS {
        let _ = writeln!(out, "    {})\n        _arguments \\", command.name);
        for line in options(command) {
            let after = match line.value.as_deref().map(|value| (value, choices(value))) {
                None => String::new(),
                Some((_, Some(words))) => format!(":value:({words})"),
                Some((value, None)) if line.is_file => format!(":{}:_files", quoted(value)),
                Some((value, None)) => format!(":{}: ", quoted(value)),
            };
            let _ = writeln!(
                out,
                "            '{}[{}]{after}' \\",
                line.name,
                quoted(&line.does)
            );
        }
        let verbs = verbs(command).join(" ");
        if !verbs.is_empty() {
            let _ = writeln!(out, "            '1:word:_alternative \"words\\:word\\:({verbs})\" \"files\\:file\\:_files\"' \\");
        }
        out.push_str("            '*:file:_files'\n        ;;\n");
    }
    out.push_str("    esac\n}\n_vantorel \"$@\"\n");
    out
}

fn fish() -> String {
    let mut out = String::from("# Completions of vantorel for fish, written from its help.\n");
    let shown = |text: &str| text.replace('\\', "\\\\").replace('\'', "\\'");
    for command in COMMANDS {
        let (name, does) = (command.name, shown(command.does));
        let _ = writeln!(
            out,
            "complete -c vantorel -n __fish_use_subcommand -f -a {name} -d '{does}'"
        );
        for verb in verbs(command) {
            let _ = writeln!(
                out,
                "complete -c vantorel -n '__fish_seen_subcommand_from {name}' -a {verb}"
            );
        }
        for line in options(command) {
            let option = match line.name.strip_prefix("--") {
                Some(long) => format!("-l {long}"),
                None => format!("-s {}", line.name.trim_start_matches('-')),
            };
            let value = match line.value.as_deref().map(choices) {
                None => String::new(),
                Some(Some(words)) => format!(" -x -a '{words}'"),
                Some(None) if line.is_file => " -r".into(),
                Some(None) => " -x".into(),
            };
            let does = shown(&line.does);
            let _ = writeln!(out, "complete -c vantorel -n '__fish_seen_subcommand_from {name}' {option}{value} -d '{does}'");
        }
    }
    out
}

const POWERSHELL_END: &str = "    }
    $valued = @($spoken[0..($spoken.Count - 1)])
    if ($word -ne '' -and $valued.Count -gt 1) { $valued = @($valued[0..($valued.Count - 2)]) }
    $before = $valued[-1]
    if ($valued.Count -le 1) { $words = @($options.Keys | Sort-Object) + '--help', '--version' }
    elseif ($choices.ContainsKey(\"$($valued[1]) $before\")) { $words = $choices[\"$($valued[1]) $before\"] }
    elseif ($word -like '-*' -and $options.ContainsKey($valued[1])) { $words = $options[$valued[1]] }
    else { return }
    $words | Where-Object { $_ -like \"$word*\" } | ForEach-Object { [System.Management.Automation.CompletionResult]::new($_, $_, 'ParameterValue', $_) }
}
";

/// Where nothing is returned, PowerShell completes names of files.
fn powershell() -> String {
    let mut out = String::from("# Completions of vantorel for PowerShell, written from its help. Add a line to $PROFILE: . C:\\folder\\vantorel.ps1\nRegister-ArgumentCompleter -Native -CommandName vantorel, vantorel.exe -ScriptBlock {\n    param($word, $tree, $at)\n    $spoken = @($tree.CommandElements | ForEach-Object { \"$_\" })\n    $options = @{\n");
    let listed = |words: &str| {
        let words = words.split(' ').map(|word| format!("'{word}'"));
        words.collect::<Vec<String>>().join(", ")
    };
    for command in COMMANDS {
        let flags = listed(&flags(&options(command)));
        let _ = writeln!(out, "        '{}' = @({flags})", command.name);
    }
    out.push_str("    }\n    $choices = @{\n");
    for command in COMMANDS {
        for line in options(command) {
            if let Some(words) = line.value.as_deref().and_then(choices) {
                let _ = writeln!(
                    out,
                    "        '{} {}' = @({})",
                    command.name,
                    line.name,
                    listed(&words)
                );
            }
        }
        let verbs = verbs(command).join(" ");
        if !verbs.is_empty() {
            let _ = writeln!(
                out,
                "        '{0} {0}' = @({1})",
                command.name,
                listed(&verbs)
            );
        }
    }
    out.push_str(POWERSHELL_END);
    out
}

#[cfg(test)]
mod tests {
    use super::*;

    /// What pages and completions have is what the command takes, no more and no less, and each is explained.
    #[test]
    fn options_of_the_help_are_those_that_are_parsed() {
        for command in COMMANDS {
            let lines = options(command);
            let mut said: Vec<&str> = lines.iter().map(|line| line.name.as_str()).collect();
            let known = command.options.iter().copied().flatten();
            let mut known: Vec<&str> = known.map(|opt| opt.name()).collect();
            said.sort();
            known.sort();
            assert_eq!(said, known, "{}", command.name);
            assert!(lines.iter().all(|line| line.does.len() > 5));
        }
    }

    #[test]
    fn words_and_choices() {
        let of = |name: &str| {
            COMMANDS
                .iter()
                .find(|command| command.name == name)
                .expect("a command")
        };
        assert_eq!(verbs(of("settings")), ["show", "pack"]);
        assert_eq!(verbs(of("why")), ["place"]);
        assert!(verbs(of("load")).is_empty());
        let choice = |command: &str, name: &str| {
            let lines = options(of(command));
            let line = lines.iter().find(|line| line.name == name);
            choices(
                line.and_then(|line| line.value.as_deref())
                    .expect("a value"),
            )
        };
        assert_eq!(choice("hex", "--board").as_deref(), Some("v1 v2"));
        assert_eq!(choice("load", "--current").as_deref(), Some("arm riscv"));
        assert!(choice("make", "--family").is_some_and(|words| words.contains("arm-ns")));
        assert_eq!(choice("load", "--drop"), None);
    }

    /// Every command has a page, and no line of one begins a request that is none.
    #[test]
    fn pages_of_every_command() {
        let files = all("2026-01-02");
        assert_eq!(files.len(), COMMANDS.len() + 5);
        for (name, text) in files.iter().filter(|(name, _)| name.ends_with(".1")) {
            assert!(text.starts_with(".TH VANTOREL"), "{name}");
            for line in text.lines().filter(|line| line.starts_with(['.', '\''])) {
                let request = line.split(' ').next().unwrap_or_default();
                assert!(
                    [".TH", ".SH", ".TP", ".PP", ".nf", ".fi", ".RS", ".RE"].contains(&request),
                    "{name}: {line}"
                );
            }
        }
    }
}
