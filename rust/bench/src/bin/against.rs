//! Two builds of the benchmark, run in turn: the least time of the proved side in each row that both print, and their ratio.
//!
//!     against BEFORE AFTER [ROW] [TURNS]
//!
//! BEFORE and AFTER are two programs `bench`, of two states of the repository. A row counts where its name holds ROW; there are 5 turns.

use std::collections::BTreeMap;
use std::error::Error;
use std::process::Command;

/// Rows that had another name: a call was not yet a look or a take.
const RENAMED: [(&str, &str); 1] = [("one call each", "a take each")];

/// The least time of each row, in nanoseconds a call.
type Least = BTreeMap<String, f64>;

/// One run of a program.
fn run(program: &str, row: &str, least: &mut Least) -> Result<(), Box<dyn Error>> {
    let output = Command::new(program).arg(row).output()?;
    if !output.status.success() {
        return Err(format!("{program}: {}", output.status).into());
    }
    for line in String::from_utf8(output.stdout)?.lines() {
        let [_, name, proved, ..] = line.split('|').map(str::trim).collect::<Vec<_>>()[..] else {
            continue;
        };
        let Some(time) = proved.split(" ns").next().and_then(|t| t.parse().ok()) else {
            continue;
        };
        let name = RENAMED
            .iter()
            .fold(name.to_string(), |name, (old, new)| name.replace(old, new));
        if name.contains(row) {
            let kept = least.entry(name).or_insert(f64::MAX);
            *kept = kept.min(time);
        }
    }
    Ok(())
}

fn main() -> Result<(), Box<dyn Error>> {
    let args: Vec<String> = std::env::args().collect();
    let [_, before, after, rest @ ..] = &args[..] else {
        return Err("against BEFORE AFTER [ROW] [TURNS]".into());
    };
    let row = rest.first().map_or("", String::as_str);
    let turns = rest.get(1).map_or(Ok(5), |n| n.parse::<usize>())?;
    let (mut old, mut new) = (Least::new(), Least::new());
    for _ in 0..turns {
        run(before, row, &mut old)?;
        run(after, row, &mut new)?;
    }
    println!("| work, proved | before | after | ratio |\n|---|---|---|---|");
    for (name, after) in &new {
        if let Some(before) = old.get(name) {
            let ratio = after / before;
            println!("| {name} | {before:.1} ns | {after:.1} ns | {ratio:.2} : 1 |");
        }
    }
    Ok(())
}
