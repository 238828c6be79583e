//! `vantorel mark`: a student's receiver beside the proved one.

mod cases;
mod chance;
mod class;
mod diagnose;
mod handin;
mod hex;
mod judge;
mod known;
mod library;
mod list;
mod mistakes;
mod program;
mod report;
mod right;
mod run;
mod samples;
mod saved;
mod set;
mod sha256;
mod sheet;
mod shrink;
mod sys;
mod tell;
mod value;

use crate::args::{Args, Opt};
use crate::out::Out;
use crate::{files, jobs, End, Outcome, Trouble};
use cases::Case;
use handin::{Form, HandIn, Made, Wanted};
use judge::Player;
use list::Play;
use report::{About, Report};
use set::Set;
use std::path::Path;
use std::time::Instant;

/// Its page of help.
pub const HELP: &str = "\
vantorel mark HAND-IN [--hex] [--set 01,L3,L8,L9] [--lists N] [--seed S]
    [--only CASE] [--out FOLDER] [--name STUDENT] [--run COMMAND] [--no-bwrap]
    [--json]
vantorel mark --class FOLDER [--jobs N] [the same]
vantorel mark --cases [--json]
vantorel mark --samples FOLDER

Marks a student's receiver on three points: an answer and an end, and a refusal
changes nothing; each arrival, check by check; the set of blocks decides how a
list ends. It plays named lists and random ones, and compares every answer with
that of the proved receiver. For each way in which the hand-in fails it shows the
smallest list that fails so, what is right and why, and the known mistake that
explains all of it.

HAND-IN is a program (.py, .js, .rs, .c with main, or anything executable) that
does what document 01's program does; or a library (.c or .rs without main, .so)
with the function uf2_take. A folder with one file, or with receiver.*, is one
hand-in. A program shows its flash by writing it, at its end, to the file that
the variable VANTOREL_FLASH names.

  --hex          it does what `hexlines [V1|V2]` does, and writes its image, of
                 262,144 bytes, to the file that VANTOREL_IMAGE names
  --set NAMES    the papers that it is asked by: 01, and of document 02 L3
                 (comments), L8 (RAM), L9 (what stands is kept); 01 alone,
                 where it is not said
  --lists N      how many random lists; 300, and 20,000 of a library
  --seed S       the same seed gives the same lists; 1, where it is not said
  --only CASE    this list alone: a name of --cases, or chance-17
  --out FOLDER   writes each smallest list as .uf2, .trace and .json, and a mark
                 sheet of one page, sheet.html, to FOLDER/HAND-IN
  --name STUDENT the name on the sheet
  --run COMMAND  runs the hand-in so: 'java -cp {} Main', where {} is its path
  --no-bwrap     runs it without bubblewrap, though that is installed
  --tries N      how often a smaller list is tried, for each way to fail; 400
  --class FOLDER marks every hand-in of the folder, and writes a sheet for each
                 and a table, class.html and class.csv, to --out (marks, where
                 it is not said)
  --jobs N       so many hand-ins at once
  --cases        lists the named cases: what each asks, and its list
  --samples FOLDER  writes sample hand-ins, right ones and wrong ones
  --json         the same for scripts

It runs the hand-in on this machine, as you. Mark only what you would run
yourself. Time (2 seconds a list), memory and output are limited, and whatever it
leaves running is ended; where bubblewrap is installed it is run inside it,
without your files and without a network. That is no sandbox you should trust.

A pass is over so many lists. It is not a proof.

Exit status 0 where all points are held, 1 where not, 2 for a wrong command line
or a hand-in that is not there.

    vantorel mark receiver.py --out marks

";

/// Its options.
pub const OPTIONS: &[Opt] = &[
    Opt::Flag("--hex"),
    Opt::Value("--set"),
    Opt::Value("--lists"),
    Opt::Value("--seed"),
    Opt::Value("--only"),
    Opt::Value("--out"),
    Opt::Value("--name"),
    Opt::Value("--run"),
    Opt::Flag("--no-bwrap"),
    Opt::Value("--tries"),
    Opt::Value("--class"),
    jobs::OPTION,
    Opt::Flag("--cases"),
    Opt::Value("--samples"),
    Opt::Flag("--json"),
];

/// The random lists, where their number is not said.
const LISTS: u64 = 300;
const LIBRARY_LISTS: u64 = 20_000;

/// What is asked of every hand-in.
struct Asked<'a> {
    set: Set,
    lists: Option<u64>,
    seed: u64,
    only: Option<&'a str>,
    out: Option<&'a str>,
    tries: usize,
    wanted: Wanted<'a>,
}

impl Asked<'_> {
    fn read(args: &Args) -> Result<Asked<'_>, Trouble> {
        let set = args.value("--set").map_or(Ok(Set::default()), Set::parse);
        let set = set.or_else(|word| {
            args.wrong(format!(
                "--set is of 01, L3, L8 and L9, with commas, and not '{word}'"
            ))
        })?;
        let lists = args.number("--lists")?;
        if lists.is_some_and(|n| n > 10_000_000) {
            return args.wrong("--lists is at most 10000000");
        }
        Ok(Asked {
            set,
            lists,
            seed: args.number("--seed")?.unwrap_or(1),
            only: args.value("--only"),
            out: args.value("--out"),
            tries: args.number("--tries")?.unwrap_or(400).min(100_000) as usize,
            wanted: Wanted {
                hex: args.flag("--hex"),
                run: args.value("--run"),
                bwrap: !args.flag("--no-bwrap"),
            },
        })
    }

    /// The cases for a form, named ones first, and how many there are.
    fn cases(&self, form: Form, args: &Args) -> Result<(Vec<Case>, u64), Trouble> {
        let able = |case: &Case| match &case.play {
            Play::Hex(..) => form == Form::Hex,
            Play::Uf2(_) if form == Form::Hex => false,
            Play::Uf2(list) => form == Form::Library || list.is_program(),
        };
        let named = cases::all()
            .into_iter()
            .filter(|case| able(case) && self.set.has(&case.needs));
        let mut named: Vec<Case> = named.collect();
        let lists = self.lists.unwrap_or(if form == Form::Library {
            LIBRARY_LISTS
        } else {
            LISTS
        });
        let Some(only) = self.only else {
            return Ok((named, lists));
        };
        if let Some(k) = only.strip_prefix("chance-").and_then(|k| k.parse().ok()) {
            return Ok((vec![self.chance(k, form)], 0));
        }
        named.retain(|case| case.id == only);
        match named.is_empty() {
            true => args.wrong(format!(
                "--only {only}: no such case for {} in set {}; `vantorel mark --cases` lists them",
                form.told(),
                self.set.told()
            )),
            false => Ok((named, 0)),
        }
    }

    /// A random list.
    fn chance(&self, k: u64, form: Form) -> Case {
        let play = match form {
            Form::Hex => {
                let (own, lines) = hex::chance(self.seed, k);
                Play::Hex(own, lines)
            }
            Form::Program => Play::Uf2(chance::program(self.seed, k, self.set)),
            Form::Library => Play::Uf2(chance::library(self.seed, k, self.set)),
        };
        let point = match &play {
            Play::Hex(..) => 2,
            Play::Uf2(_) if form == Form::Library && k % 2 == 1 => 2,
            Play::Uf2(_) => 3,
        };
        Case {
            id: format!("chance-{k}"),
            point,
            needs: Vec::new(),
            asks: format!("a random list, number {k} of seed {}", self.seed),
            paper: "The claim is for every list of its blocks, in any order, any number of times or not at all.",
            shows: Vec::new(),
            written: String::new(),
            play,
        }
    }
}

/// The process that opens a library, where the words say so.
pub fn serve(words: &[String]) {
    if let Some((library::WORD, rest)) = words
        .split_first()
        .map(|(word, rest)| (word.as_str(), rest))
    {
        library::serve(rest);
    }
}

/// Runs the command.
pub fn run(args: &Args, out: &mut Out) -> Outcome {
    let asked = Asked::read(args)?;
    if args.flag("--cases") {
        list_cases(args, out);
        return Ok(End::Whole);
    }
    if let Some(folder) = args.value("--samples") {
        for path in samples::write(folder)? {
            out.line(path);
        }
        return Ok(End::Whole);
    }
    if let Some(folder) = args.value("--class") {
        return whole_class(folder, args, out);
    }
    let [name] = args.files(["HAND-IN"])?;
    sys::adopt_orphans();
    let report = marked(Path::new(name), &asked, args)?;
    if args.flag("--json") {
        out.line(tell::json(&report));
    } else {
        tell::words(&report, out);
    }
    Ok(if report.is_held() {
        End::Whole
    } else {
        End::Short
    })
}

/// Marks every hand-in of a folder.
fn whole_class(folder: &str, args: &Args, out: &mut Out) -> Outcome {
    let target = args.value("--out").unwrap_or("marks");
    let [] = args.files([])?;
    let own = [
        "--hex",
        "--set",
        "--lists",
        "--seed",
        "--only",
        "--run",
        "--no-bwrap",
        "--tries",
    ];
    let own: Vec<Opt> = OPTIONS
        .iter()
        .copied()
        .filter(|opt| own.contains(&opt.name()))
        .collect();
    let words = args.words_of(&own);
    let students = class::mark(folder, &words, target, jobs::said(args)?)?;
    class::write(&students, target)?;
    if args.flag("--json") {
        out.line(class::json(&students));
    } else {
        class::words(&students, target, out);
    }
    let held = students.iter().all(|student| student.held);
    Ok(if held { End::Whole } else { End::Short })
}

/// Marks one hand-in, and writes its files.
fn marked(path: &Path, asked: &Asked, args: &Args) -> Result<Report, Trouble> {
    let name = files::short(&path.to_string_lossy());
    let about = |file: &Path, form: Form, how: &str, bare: Option<String>, digest: &str| About {
        name: args.value("--name").unwrap_or(&name).to_string(),
        file: file.to_string_lossy().into_owned(),
        digest: digest.into(),
        form,
        how: how.into(),
        bare,
        set: asked.set,
        seed: asked.seed,
    };
    let handin = match handin::make(path, asked.wanted)? {
        Made::Ready(handin) => handin,
        Made::Fails {
            path,
            form,
            why,
            digest,
        } => {
            let mut report = Report {
                about: about(&path, form, "not compiled", None, &digest),
                marks: None,
                runs: 0,
                diagnosis: None,
                failures: Vec::new(),
                remarks: vec![format!("It does not compile: {why}")],
                sheet: None,
            };
            if let Some(folder) = asked.out {
                write(&mut report, folder, args.value("--name").unwrap_or(&name))?;
            }
            return Ok(report);
        }
    };
    let (named, lists) = asked.cases(handin.form, args)?;
    let about = about(
        &handin.path,
        handin.form,
        &handin.how,
        handin.bare.clone(),
        &handin.digest,
    );
    let mut report = played(*handin, about, named, lists, asked)?;
    if let Some(folder) = asked.out {
        write(&mut report, folder, args.value("--name").unwrap_or(&name))?;
    }
    Ok(report)
}

/// Plays all lists, finds the mistake, and makes the failing lists small.
fn played(
    handin: HandIn,
    about: About,
    named: Vec<Case>,
    lists: u64,
    asked: &Asked,
) -> Result<Report, Trouble> {
    let form = handin.form;
    let all = named.len() + lists as usize;
    let chance = (0..lists).map(|k| asked.chance(k, form));
    let cases = named.into_iter().chain(chance);
    let until = Instant::now() + judge::ALL;
    let player: Result<Box<dyn Player>, String> = match form {
        Form::Library => library::Library::new(handin.program.clone())
            .map(|library| Box::new(library) as Box<dyn Player>)
            .map_err(|why| why.to_string()),
        _ => Ok(Box::new(program::Programs::new(handin.program.clone()))),
    };
    let mut player = player.map_err(|why| Trouble(format!("{}: {why}", about.file)))?;
    let player = player.as_mut();
    let marks = judge::mark(cases, all, until, player);
    let runs = player.runs();
    let shown = Report::shown(form, marks.contents);
    let needs = asked.set.told();
    let needs: Vec<&str> = needs.split(',').collect();
    let mut diagnosis = diagnose::diagnose(&marks.results, form.word(), &needs, shown);
    if form == Form::Library {
        diagnosis = diagnose::memory(diagnosis, &marks.results, player);
    }
    let failures = report::failures(&marks.results, asked.set, asked.tries, player);
    Ok(Report {
        about,
        marks: Some(marks),
        runs,
        diagnosis,
        failures,
        remarks: handin.remarks,
        sheet: None,
    })
}

/// Writes the files of the smallest lists.
fn write(report: &mut Report, folder: &str, name: &str) -> Result<(), Trouble> {
    let stem = match name.contains('.') {
        true => Path::new(name)
            .file_stem()
            .unwrap_or_default()
            .to_string_lossy()
            .into_owned(),
        false => name.to_string(),
    };
    let folder = Path::new(folder).join(stem.replace('/', "_"));
    let mut used: Vec<String> = Vec::new();
    for failure in &mut report.failures {
        let mut name = failure.case.clone();
        if used.contains(&name) {
            name = format!("{name}-{}", failure.kind.word().replace(' ', "-"));
        }
        used.push(name.clone());
        let title = format!("{}: {}", failure.case, failure.asks);
        failure.saved = Some(saved::save(
            &folder,
            &name,
            &title,
            &failure.play,
            &failure.got,
            &failure.right,
        )?);
    }
    std::fs::create_dir_all(&folder)
        .map_err(|why| Trouble(format!("cannot write {}: {why}", folder.display())))?;
    let path = folder.join("sheet.html").to_string_lossy().into_owned();
    files::write(&path, sheet::sheet(report).as_bytes())?;
    report.sheet = Some(path);
    Ok(())
}

/// The named cases.
fn list_cases(args: &Args, out: &mut Out) {
    use crate::json::Json;
    let all = cases::all();
    if args.flag("--json") {
        let each = all.iter().map(|case| {
            Json::Object(vec![
                ("case", case.id.as_str().into()),
                ("point", case.point.into()),
                ("needs", Json::list(case.needs.iter().copied())),
                ("asks", case.asks.as_str().into()),
                ("paper", case.paper.into()),
                ("shows", Json::list(case.shows.iter().copied())),
                ("list", case.written.as_str().into()),
            ])
        });
        out.line(Json::Object(vec![("cases", Json::list(each))]));
        return;
    }
    for case in all {
        let needs = match case.needs.is_empty() {
            true => String::new(),
            false => format!(" (set {})", case.needs.join(",")),
        };
        out.line(format_args!("{}, point {}{needs}", case.id, case.point));
        for line in tell::wrapped(&format!("asks: {}", case.asks), 2) {
            out.line(line);
        }
        for line in tell::wrapped(&format!("paper: {}", case.paper), 2) {
            out.line(line);
        }
        if !case.written.is_empty() {
            for line in tell::wrapped(&format!("list: {}", case.written), 2) {
                out.line(line);
            }
        }
    }
}
