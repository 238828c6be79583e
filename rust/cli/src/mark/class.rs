//! A whole class: each hand-in of a folder is marked by a process of its own, so that what one leaves running is never another's.

use super::sheet;
use super::value::Value;
use crate::json::Json;
use crate::out::Out;
use crate::{files, jobs, Trouble};
use std::path::Path;
use std::process::{Command, Stdio};

/// A student's marks.
pub struct Student {
    pub name: String,
    pub form: String,
    pub marks: Vec<String>,
    /// The mistake, or what else is to be said.
    pub says: String,
    pub held: bool,
    /// The lists that failed.
    cases: Vec<String>,
    /// What the marker said.
    json: Option<Value>,
}

/// Marks every hand-in of a folder. The words are the options for each of them.
pub fn mark(
    folder: &str,
    words: &[String],
    target: &str,
    jobs: usize,
) -> Result<Vec<Student>, Trouble> {
    let mut paths = files::list(folder)?;
    let hidden = |path: &String| files::short(path).starts_with('.');
    paths.retain(|path| !hidden(path) && Path::new(path) != Path::new(target));
    paths.sort();
    if paths.is_empty() {
        return Err(Trouble(format!("{folder}: there is no hand-in in it")));
    }
    let tool = std::env::current_exe().map_err(|why| Trouble(why.to_string()))?;
    let names = names(&paths);
    let named: Vec<(&String, String)> = paths.iter().zip(names).collect();
    jobs::in_order(jobs, "mark", &named, |(path, name)| {
        let output = Command::new(&tool)
            .args(["mark", "--json", "--out", target, "--name", name])
            .args(words)
            .arg("--")
            .arg(path)
            .stdin(Stdio::null())
            .output();
        let output = output.map_err(|why| Trouble(why.to_string()))?;
        let json = Value::parse(&String::from_utf8_lossy(&output.stdout));
        let trouble = String::from_utf8_lossy(&output.stderr)
            .trim()
            .trim_start_matches("vantorel: ")
            .to_string();
        Ok(student(name, json, trouble))
    })
}

/// The students' names: those of the files without their endings, or with them where two would be alike.
fn names(paths: &[String]) -> Vec<String> {
    let stem = |path: &String| {
        let stem = Path::new(path).file_stem().unwrap_or_default();
        stem.to_string_lossy().into_owned()
    };
    let stems: Vec<String> = paths.iter().map(stem).collect();
    let name = |(path, stem): (&String, &String)| match stems
        .iter()
        .filter(|other| *other == stem)
        .count()
    {
        1 => stem.clone(),
        _ => files::short(path).replace('.', "-"),
    };
    paths.iter().zip(&stems).map(name).collect()
}

/// What is told of a student.
fn student(name: &str, json: Option<Value>, trouble: String) -> Student {
    let stem = name.to_string();
    let Some(value) = json else {
        return Student {
            name: stem,
            form: "-".into(),
            marks: vec!["-".into(); 3],
            says: trouble,
            held: false,
            cases: Vec::new(),
            json: None,
        };
    };
    let text = |field: &str| {
        value
            .field(field)
            .and_then(Value::text)
            .unwrap_or_default()
            .to_string()
    };
    let list = |value: &Value, field: &str| {
        value
            .field(field)
            .and_then(Value::list)
            .unwrap_or_default()
            .to_vec()
    };
    let marks = list(&value, "points")
        .iter()
        .map(|point| {
            word(
                point
                    .field("mark")
                    .and_then(Value::text)
                    .unwrap_or_default(),
            )
        })
        .collect();
    let names: Vec<String> = value
        .field("diagnosis")
        .map(|found| list(found, "names"))
        .unwrap_or_default()
        .iter()
        .filter_map(|name| name.text().map(String::from))
        .collect();
    let whole = value
        .field("diagnosis")
        .and_then(|found| found.field("whole"))
        == Some(&Value::Flag(true));
    let failures = list(&value, "failures");
    let first = failures
        .first()
        .and_then(|failure| Some(list(failure, "sentences").first()?.text()?.to_string()));
    let says = match (names.is_empty(), whole) {
        (false, true) => names.join(", and "),
        (false, false) => format!("nearest: {}", names.join(", and ")),
        (true, _) => first
            .or_else(|| {
                list(&value, "remarks")
                    .first()
                    .and_then(|x| x.text().map(String::from))
                    .filter(|_| failures.is_empty() && text("verdict").starts_with("NOT MARKED"))
            })
            .unwrap_or_default(),
    };
    let verdict = text("verdict");
    Student {
        name: stem,
        form: text("form"),
        marks,
        says,
        held: verdict.starts_with("HELD: "),
        cases: list(&value, "failed_cases")
            .iter()
            .filter_map(|case| case.text().map(String::from))
            .collect(),
        json: Some(value),
    }
}

fn word(mark: &str) -> String {
    match mark {
        "HELD" => "held".into(),
        "HELD IN ANSWERS" => "in answers".into(),
        "NOT MARKED" => "-".into(),
        other => other.into(),
    }
}

/// The most frequent of some texts, with how many times each stands.
fn commonest<'a>(texts: impl Iterator<Item = &'a str>) -> Vec<(&'a str, usize)> {
    let mut found: Vec<(&str, usize)> = Vec::new();
    for text in texts {
        match found.iter_mut().find(|(other, _)| *other == text) {
            Some((_, count)) => *count += 1,
            None => found.push((text, 1)),
        }
    }
    found.sort_by(|a, b| b.1.cmp(&a.1).then(a.0.cmp(b.0)));
    found
}

/// The last sentences: how many hold, the commonest mistakes, and the list that most fail.
pub fn summary(students: &[Student]) -> Vec<String> {
    let held = students.iter().filter(|student| student.held).count();
    let hold = if held == 1 { "holds" } else { "hold" };
    let mut lines = vec![format!(
        "{}: {held} {hold} all points.",
        crate::number::count(students.len() as u64, "hand-in")
    )];
    let names = students.iter().flat_map(|student| {
        let names = student
            .json
            .as_ref()
            .and_then(|json| json.field("diagnosis")?.field("names")?.list());
        names.unwrap_or_default().iter().filter_map(Value::text)
    });
    let names: Vec<String> = commonest(names)
        .iter()
        .take(5)
        .map(|(name, count)| format!("{name}, {count}"))
        .collect();
    if !names.is_empty() {
        lines.push(format!("Commonest: {}.", names.join("; ")));
    }
    let cases = students
        .iter()
        .flat_map(|student| student.cases.iter().map(String::as_str));
    if let Some((case, count)) =
        commonest(cases.filter(|case| !case.starts_with("chance-"))).first()
    {
        lines.push(format!(
            "The case that most fail: {case}, {count} of {}.",
            students.len()
        ));
    }
    lines
}

/// The table in words.
pub fn words(students: &[Student], target: &str, out: &mut Out) {
    let wide = |cell: &dyn Fn(&Student) -> usize, least: usize| {
        students.iter().map(cell).max().unwrap_or(0).max(least)
    };
    let name = wide(&|student| student.name.chars().count(), 7);
    let form = wide(&|student| student.form.len(), 4);
    let row = |cells: [&str; 6]| {
        let [a, b, c, d, e, f] = cells;
        format!("{a:name$}  {b:form$}  {c:10}  {d:10}  {e:10}  {f}")
            .trim_end()
            .to_string()
    };
    out.line(row(["student", "form", "1", "2", "3", "as if"]));
    for student in students {
        let marks: Vec<&str> = student.marks.iter().map(String::as_str).collect();
        out.line(row([
            &student.name,
            &student.form,
            marks[0],
            marks[1],
            marks[2],
            &student.says,
        ]));
    }
    for line in summary(students) {
        for line in super::tell::wrapped(&line, 0) {
            out.line(line);
        }
    }
    out.line(format_args!(
        "written: {target}/class.html, class.csv, and a sheet.html for each"
    ));
}

/// The table as files.
pub fn write(students: &[Student], target: &str) -> Result<(), Trouble> {
    let quoted = |text: &str| format!("\"{}\"", text.replace('"', "\"\""));
    let mut csv = String::from("student,form,point 1,point 2,point 3,as if\n");
    for student in students {
        let cells = [&student.name, &student.form]
            .into_iter()
            .chain(&student.marks)
            .chain([&student.says]);
        let cells: Vec<String> = cells.map(|cell| quoted(cell)).collect();
        csv += &(cells.join(",") + "\n");
    }
    std::fs::create_dir_all(target)
        .map_err(|why| Trouble(format!("cannot write {target}: {why}")))?;
    files::write(&format!("{target}/class.csv"), csv.as_bytes())?;
    files::write(
        &format!("{target}/class.html"),
        sheet::class(students, &summary(students)).as_bytes(),
    )
}

/// The table for scripts.
pub fn json(students: &[Student]) -> Json {
    let each = students.iter().map(|student| {
        Json::Object(vec![
            ("student", student.name.as_str().into()),
            ("form", student.form.as_str().into()),
            (
                "points",
                Json::list(student.marks.iter().map(String::as_str)),
            ),
            ("as_if", student.says.as_str().into()),
            (
                "cases",
                Json::list(student.cases.iter().map(String::as_str)),
            ),
        ])
    });
    Json::Object(vec![
        ("students", Json::list(each)),
        ("summary", Json::list(summary(students))),
    ])
}
