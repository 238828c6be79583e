//! What came of the traces, in words and for scripts.

use crate::json::Json;
use crate::number::count;
use crate::{names, table};
use proved::Answer;
use tools::part::Part;
use tools::report::{FiguresRefusal, Report};
use tools::trace::Stop;

/// What came of one trace.
#[derive(Clone, PartialEq, Eq, Debug)]
pub struct Played {
    /// Its name.
    pub name: String,
    /// Where it stopped, or why it was not replayed.
    pub stop: Result<Stop, FiguresRefusal>,
    /// Whether it has no records.
    pub empty: bool,
    /// Whether nobody said how large the flash is.
    pub guessed: bool,
}

impl Played {
    fn words(&self) -> String {
        let name = &self.name;
        match self.stop {
            Ok(Stop::None) if self.empty => format!("{name}: empty, it has no records"),
            Ok(Stop::None) => format!("{name}: none, every record was replayed"),
            Ok(Stop::Bad(k)) => {
                format!("{name}: bad at record {k}; the records before it are in the figures")
            }
            Ok(Stop::Differs(k)) if self.guessed => {
                format!("{name}: undecided at record {k}, where our answer is another, since nobody said the flash: say it by --flash; the records before it are in the figures")
            }
            Ok(Stop::Differs(k)) => {
                format!("{name}: differs at record {k}; the records before it are in the figures")
            }
            Err(why) => format!(
                "{name}: {} {why:?}, not replayed: {}",
                why.number(),
                table::words("figures", why.number())
            ),
        }
    }

    fn json(&self) -> Json {
        let (word, index) = match self.stop {
            Ok(Stop::None) if self.empty => ("empty", None),
            Ok(Stop::None) => ("none", None),
            Ok(Stop::Bad(k)) => ("bad", Some(k)),
            Ok(Stop::Differs(k)) if self.guessed => ("undecided", Some(k)),
            Ok(Stop::Differs(k)) => ("differs", Some(k)),
            Err(_) => ("refused", None),
        };
        Json::Object(vec![
            ("trace", self.name.as_str().into()),
            ("stop", word.into()),
            ("index", index.into()),
            (
                "refusal",
                self.stop.err().map(|why| u32::from(why.number())).into(),
            ),
        ])
    }
}

/// The answers in the order of their numbers, with their counts.
fn counts(figures: &Report) -> impl Iterator<Item = (Answer, u32)> {
    let answers = (1..).filter_map(Answer::from_number);
    // the counts come first: they end, and the numbers do not
    let counts = figures.counts.into_iter().zip(answers);
    counts.map(|(n, answer)| (answer, n))
}

/// The figures in words, line by line: those traces first of which something is told, and then all.
pub fn words(part: &Part, traces: &[Played]) -> Vec<String> {
    let figures = &part.report;
    let mut lines: Vec<String> = traces.iter().map(Played::words).collect();
    lines.push(format!(
        "{}, {} replayed",
        count(part.traces.into(), "trace"),
        count(figures.records.into(), "record")
    ));
    let guessed = traces.iter().any(|trace| trace.guessed);
    lines.push(format!(
        "traces that stopped: {} bad, {} {}",
        part.bad,
        part.differs,
        if guessed { "undecided" } else { "differing" }
    ));
    for (answer, n) in counts(figures).filter(|(_, n)| *n > 0) {
        let name = names::answer(answer);
        lines.push(format!("  {name:14}{n:10}  {}", names::meaning(answer)));
    }
    lines.push(format!("running transfers discarded: {}", figures.discards));
    lines.push(format!(
        "at the end of the last trace: {} marked{}",
        count(figures.marked.into(), "block"),
        match figures.missing {
            Some(k) => format!(", and block {k} is the first that is missing"),
            None => String::new(),
        }
    ));
    lines
}

/// The same for scripts, every answer with its count, 0 too.
pub fn json(part: &Part, traces: &[Played]) -> Json {
    let figures = &part.report;
    let answers = counts(figures).map(|(answer, n)| {
        Json::Object(vec![
            ("answer", u32::from(answer.number()).into()),
            ("name", format!("{answer:?}").into()),
            ("count", n.into()),
        ])
    });
    Json::Object(vec![
        ("traces", Json::list(traces.iter().map(Played::json))),
        ("traces_replayed", part.traces.into()),
        ("bad", part.bad.into()),
        ("differs", part.differs.into()),
        ("records", figures.records.into()),
        ("answers", Json::list(answers)),
        ("discards", figures.discards.into()),
        ("marked", figures.marked.into()),
        ("missing", figures.missing.into()),
    ])
}

/// Whether every trace was replayed to its end.
pub fn whole(traces: &[Played]) -> bool {
    let whole = |trace: &Played| trace.stop == Ok(Stop::None) && !trace.empty;
    traces.iter().all(whole)
}

/// Whether no trace of a part stopped.
pub fn none_stopped(part: &Part) -> bool {
    part.bad == 0 && part.differs == 0
}

#[cfg(test)]
mod tests {
    use super::*;

    fn example() -> (Part, Vec<Played>) {
        let mut counts = [0; 16];
        counts[3] = 1; // 4 NotBlock
        counts[5] = 2; // 7 NoFamily
        counts[12] = 5; // 14 Written
        counts[15] = 1; // 17 Kept
        let figures = Report {
            records: 9,
            counts,
            discards: 1,
            marked: 6,
            missing: Some(17),
        };
        let stops = [
            Ok(Stop::None),
            Ok(Stop::Bad(3)),
            Ok(Stop::Differs(4)),
            Err(FiguresRefusal::TooMany),
            Err(FiguresRefusal::BadReport),
        ];
        let played = ["a", "b", "c", "d", "e"].iter().zip(stops);
        let played = played.map(|(name, stop)| Played {
            name: name.to_string(),
            stop,
            empty: false,
            guessed: false,
        });
        let part = Part {
            report: figures,
            traces: 3,
            bad: 1,
            differs: 1,
        };
        (part, played.collect())
    }

    #[test]
    fn in_words() {
        let (figures, traces) = example();
        assert_eq!(
            words(&figures, &traces),
            [
                "a: none, every record was replayed",
                "b: bad at record 3; the records before it are in the figures",
                "c: differs at record 4; the records before it are in the figures",
                "d: 70 TooMany, not replayed: the report's records and the whole pieces of the trace, replayed or not, would pass 4,294,967,295",
                "e: 71 BadReport, not replayed: the counts do not sum to the records, more discards than records, or another length",
                "3 traces, 9 records replayed",
                "traces that stopped: 1 bad, 1 differing",
                "  4 NotBlock             1  no UF2 block: a magic number differs",
                "  7 NoFamily             2  flag 0x2000 is clear: the block names no family",
                "  14 Written             5  stored, others are missing",
                "  17 Kept                1  counted and not stored, since the flash has what its region names; others are missing",
                "running transfers discarded: 1",
                "at the end of the last trace: 6 blocks marked, and block 17 is the first that is missing",
            ]
        );
        assert!(!whole(&traces) && whole(&traces[..1]));
        assert!(!none_stopped(&figures) && none_stopped(&Part::FRESH));
        let mut done = figures;
        (done.report.missing, done.report.marked) = (None, 1);
        assert_eq!(
            words(&done, &[]).last().map(String::as_str),
            Some("at the end of the last trace: 1 block marked")
        );
    }

    #[test]
    fn for_scripts() {
        let (figures, traces) = example();
        let text = json(&figures, &traces[..2]).to_string();
        assert!(text.starts_with("{\"traces\": [{\"trace\": \"a\", \"stop\": \"none\", \"index\": null, \"refusal\": null}, {\"trace\": \"b\", \"stop\": \"bad\", \"index\": 3,"));
        assert!(text.contains("{\"answer\": 17, \"name\": \"Kept\", \"count\": 1}"));
        assert_eq!(text.matches("\"count\"").count(), 16);
        assert!(text.ends_with("\"discards\": 1, \"marked\": 6, \"missing\": 17}"));
    }
}
