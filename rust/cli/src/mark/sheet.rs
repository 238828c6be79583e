//! The mark sheet of a hand-in, one page to print, and the table of a class. No script.

use super::class::Student;
use super::judge::Mark;
use super::known;
use super::program::thousands;
use super::report::{answer, Failure, Report};
use super::tell;

const STYLE: &str = "@page{size:A4;margin:13mm}*{box-sizing:border-box;print-color-adjust:exact;-webkit-print-color-adjust:exact}\
body{font:10pt/1.35 'Liberation Sans',Arial,sans-serif;max-width:184mm;margin:4mm auto;padding:0 2mm;color:#111}\
h1{font-size:17pt;margin:0}h2{font-size:12.5pt;margin:4mm 0 1mm}h3{font-size:10.5pt;margin:3mm 0 1mm}p{margin:.8mm 0}\
.head{display:flex;justify-content:space-between;gap:6mm;border-bottom:2px solid #111;padding-bottom:2mm}\
.points{display:grid;grid-template-columns:repeat(3,1fr);gap:4mm;margin-top:3mm}.point{border:2px solid #0d6b41;border-radius:2mm;padding:1.5mm 3mm}\
.point.not{border:2px dashed #a33400}.point.none{border:2px dotted #555}.mark{font-size:14pt;font-weight:bold}.not .mark{color:#a33400}.held .mark{color:#0d6b41}\
.small,.foot{font-size:8.5pt;color:#333}.dia{font-size:12.5pt;font-weight:bold}.danger{border-left:2mm solid #a33400;padding-left:3mm;font-weight:bold}\
table{border-collapse:collapse;width:100%;font-size:8.8pt}td,th{border:1px solid #888;padding:.7mm 1.3mm;text-align:left;vertical-align:top}\
.bad td{background:#ffe9dd}.bad td:nth-child(3){font-weight:bold}.foot{margin-top:4mm;border-top:1px solid #888;padding-top:1.5mm}.digest{overflow-wrap:anywhere}\
thead{display:table-header-group}tr{break-inside:avoid}";

/// A text as HTML has it.
pub fn escaped(text: &str) -> String {
    let mut out = String::new();
    for c in text.chars() {
        match c {
            '&' => out += "&amp;",
            '<' => out += "&lt;",
            '>' => out += "&gt;",
            '"' => out += "&quot;",
            c => out.push(c),
        }
    }
    out
}

fn page(title: &str, body: &str) -> String {
    format!(
        "<!doctype html>\n<html lang=\"en\">\n<head><meta charset=\"utf-8\"><meta name=\"viewport\" content=\"width=device-width\"><title>{}</title><style>{STYLE}</style></head>\n<body>\n{body}</body>\n</html>\n",
        escaped(title)
    )
}

/// The most lists on a sheet, and the most rows of one.
const LISTS: usize = 2;
const ROWS: usize = 6;

/// The sheet of a hand-in.
pub fn sheet(report: &Report) -> String {
    let about = &report.about;
    let mut body = String::new();
    let student = match about.name.as_str() {
        name if about.file.ends_with(name) => "______________________".to_string(),
        name => escaped(name),
    };
    let lists = report.marks.as_ref().map_or(0, |marks| marks.played);
    body += &format!(
        "<div class=\"head\"><div><h1>Mark sheet</h1><p>Hand-in: <b>{}</b>, {}, {}</p><p class=\"small digest\">SHA-256 {}</p></div><div><p>Student: {student}</p><p>Set {}, seed {}, {} lists</p></div></div>\n",
        escaped(&crate::files::short(&about.file)),
        about.form.told(),
        escaped(&about.how),
        about.digest,
        about.set.told(),
        about.seed,
        thousands(lists as u64),
    );
    body += "<div class=\"points\">";
    for point in 1..=3 {
        body += &square(report, point);
    }
    body += "</div>\n";
    body += &mistake(report);
    for failure in report.failures.iter().take(LISTS) {
        body += &list(failure);
    }
    if report.marks.is_none() {
        body += &format!(
            "<h2>It was not marked</h2><p>{}</p>\n",
            escaped(&report.remarks.join(" "))
        );
    }
    let more: Vec<String> = tell::remarks(report)
        .iter()
        .map(|remark| escaped(remark))
        .collect();
    body += &format!(
        "<p class=\"foot\">{} {} Right answers and reasons are those of the proved receiver. The mistake is named by comparing the hand-in with receivers that are wrong on purpose, and may be another. A pass is over {} lists, and not a proof.</p>\n",
        escaped(&report.verdict()),
        more.join(" "),
        thousands(lists as u64),
    );
    page(&format!("Mark sheet: {}", about.name), &body)
}

fn square(report: &Report, point: usize) -> String {
    let mark = report.mark(point);
    let (class, word) = match mark {
        Mark::Held => ("held", "✓ held"),
        Mark::InAnswers => ("none", "– in answers"),
        Mark::NotHeld => ("not", "✗ not held"),
        Mark::NotMarked => ("none", "– not marked"),
    };
    let count = match (&report.marks, mark) {
        (_, Mark::NotMarked) | (None, _) => "&nbsp;".to_string(),
        (Some(marks), _) => {
            let (asked, failed) = marks.count(point);
            format!(
                "{} of {} lists",
                thousands((asked - failed) as u64),
                thousands(asked as u64)
            )
        }
    };
    format!(
        "<div class=\"point {class}\"><b>Point {point}</b><p class=\"mark\">{word}</p><p>{count}</p><p class=\"small\">{}</p></div>",
        escaped(tell::POINTS[point - 1])
    )
}

fn mistake(report: &Report) -> String {
    let Some(diagnosis) = &report.diagnosis else {
        return String::new();
    };
    let Some(best) = &diagnosis.best else {
        return "<h2>What it does wrong</h2><p>None of the known mistakes explains it.</p>\n"
            .into();
    };
    let title = if diagnosis.is_whole() {
        "What it does wrong: as if"
    } else {
        "The nearest known mistake"
    };
    let mut text = format!("<h2>{title}</h2>\n");
    for id in &best.mistakes {
        let known = known::of(id);
        text += &format!(
            "<p class=\"dia\">{}.</p><p>{}</p><p>Right: {}</p><p class=\"danger\">{}</p>\n",
            escaped(&known.name),
            escaped(&known.does),
            escaped(&known.right),
            escaped(&known.danger)
        );
    }
    text += &format!("<p class=\"small\">It explains {} of {} wrong lists; {} right ones speak against it.</p>\n", best.explains, diagnosis.wrong, best.against);
    text
}

fn list(failure: &Failure) -> String {
    let mut text = format!(
        "<h3>Point {}: {} ({}), at its smallest: {}</h3><p class=\"small\">“{}”</p>\n<table><tr><th>arrival</th><th>what came</th><th>it answered</th><th>right</th><th>why</th></tr>\n",
        failure.point,
        escaped(&failure.asks),
        escaped(&failure.case),
        tell::size(failure),
        escaped(&failure.paper)
    );
    let from = failure.rows.len().saturating_sub(ROWS);
    for (k, row) in failure.rows.iter().enumerate().skip(from) {
        let class = if row.is_wrong() { " class=\"bad\"" } else { "" };
        let got = row
            .got
            .map_or("nothing".to_string(), |got| answer(got, &failure.play));
        text += &format!(
            "<tr{class}><td>{k}</td><td>{}</td><td>{}</td><td>{}</td><td>{}</td></tr>\n",
            escaped(&row.what),
            escaped(&got),
            escaped(&answer(row.right, &failure.play)),
            escaped(&row.why)
        );
    }
    text += "</table>";
    for sentence in tell::sentences(failure) {
        text += &format!("<p>{}</p>", escaped(&sentence));
    }
    text + "\n"
}

/// The table of a class.
pub fn class(students: &[Student], summary: &[String]) -> String {
    let mut body = String::from("<div class=\"head\"><div><h1>Marks of a class</h1></div></div>\n<table><thead><tr><th>student</th><th>form</th><th>1</th><th>2</th><th>3</th><th>as if</th></tr></thead>\n");
    for student in students {
        let cells: String = student
            .marks
            .iter()
            .map(|mark| format!("<td>{}</td>", escaped(mark)))
            .collect();
        body += &format!(
            "<tr><td><a href=\"{0}/sheet.html\">{0}</a></td><td>{1}</td>{cells}<td>{2}</td></tr>\n",
            escaped(&student.name),
            escaped(&student.form),
            escaped(&student.says)
        );
    }
    body += "</table>\n";
    for line in summary {
        body += &format!("<p>{}</p>\n", escaped(line));
    }
    body += "<p class=\"foot\">Right answers are those of the proved receiver. A pass is over so many lists, and not a proof.</p>\n";
    page("Marks of a class", &body)
}
