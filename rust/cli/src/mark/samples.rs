//! Sample hand-ins: teaching/samples, right ones and, by edits of these, one for each known mistake.

use super::known;
use crate::{files, Trouble};
use std::path::Path;

const RIGHT: [(&str, &str); 4] = [
    (
        "right.c",
        include_str!("../../../../teaching/samples/right.c"),
    ),
    (
        "right.py",
        include_str!("../../../../teaching/samples/right.py"),
    ),
    (
        "right.rs",
        include_str!("../../../../teaching/samples/right.rs"),
    ),
    (
        "hexright.py",
        include_str!("../../../../teaching/samples/hexright.py"),
    ),
];
const EDITS: &str = include_str!("../../../../teaching/samples/edits.txt");

/// A sample.
pub struct Sample {
    /// Its file.
    pub name: String,
    pub text: String,
    /// Its mistake; none where it is right.
    #[cfg_attr(not(test), allow(dead_code))]
    pub mistake: Option<&'static str>,
    /// The points that it fails.
    #[cfg_attr(not(test), allow(dead_code))]
    pub points: Vec<usize>,
}

/// All samples.
pub fn all() -> Result<Vec<Sample>, String> {
    let right = RIGHT.iter().map(|(name, text)| {
        Ok(Sample {
            name: (*name).into(),
            text: (*text).into(),
            mistake: None,
            points: Vec::new(),
        })
    });
    let lines: Vec<&str> = EDITS
        .lines()
        .filter(|line| !line.starts_with('#'))
        .collect();
    let parts = lines
        .split(|line| line.is_empty())
        .filter(|part| !part.is_empty());
    right.chain(parts.map(edited)).collect()
}

/// A right sample with some texts replaced.
fn edited(part: &[&str]) -> Result<Sample, String> {
    let head: Vec<&str> = part[0].split(' ').collect();
    let ["edit", mistake, file] = head.as_slice() else {
        return Err(part[0].into());
    };
    let (_, right) = RIGHT.iter().find(|(name, _)| name == file).ok_or(part[0])?;
    let mut pairs: Vec<(&str, String)> = Vec::new();
    let mut points = Vec::new();
    let mut first = false;
    for line in &part[1..] {
        let (key, value) = line.split_once(' ').unwrap_or((line, ""));
        match key {
            "points" => points = value.split(' ').filter_map(|x| x.parse().ok()).collect(),
            "find" => {
                pairs.push((value, String::new()));
                first = true;
            }
            "with" => {
                let (_, with) = pairs.last_mut().ok_or(part[0])?;
                if !first {
                    with.push('\n');
                }
                *with += value;
                first = false;
            }
            _ => return Err(format!("{}: {line}", part[0])),
        }
    }
    let mut text = (*right).to_string();
    for (find, with) in pairs {
        if text.matches(find).count() != 1 {
            return Err(format!(
                "{}: '{find}' stands {} times",
                part[0],
                text.matches(find).count()
            ));
        }
        text = text.replacen(find, &with, 1);
    }
    let stem = mistake.replace('-', "_");
    let ending = file.rsplit_once('.').map_or("", |(_, ending)| ending);
    Ok(Sample {
        name: format!("{stem}.{ending}"),
        text,
        mistake: Some(known::of(mistake).id.as_str()),
        points,
    })
}

/// Writes all samples to a folder; their names.
pub fn write(folder: &str) -> Result<Vec<String>, Trouble> {
    let samples = all().map_err(Trouble)?;
    std::fs::create_dir_all(folder)
        .map_err(|why| Trouble(format!("cannot write {folder}: {why}")))?;
    let path = |sample: &Sample| {
        Path::new(folder)
            .join(&sample.name)
            .to_string_lossy()
            .into_owned()
    };
    for sample in &samples {
        files::write(&path(sample), sample.text.as_bytes())?;
    }
    Ok(samples.iter().map(path).collect())
}

#[cfg(test)]
mod tests {
    use super::*;
    use std::collections::HashSet;

    /// Every mistake that document 01 alone can have has a sample; those of the requests are shown by right samples in their sets.
    #[test]
    fn one_for_each_mistake() {
        let samples = all().expect("edits that fit");
        let shown: HashSet<&str> = samples.iter().filter_map(|sample| sample.mistake).collect();
        for known in known::all() {
            assert_eq!(
                shown.contains(known.id.as_str()),
                known.needs.is_none(),
                "{}",
                known.id
            );
        }
        let names: HashSet<&str> = samples.iter().map(|sample| sample.name.as_str()).collect();
        assert_eq!(names.len(), samples.len());
        assert!(samples
            .iter()
            .all(|sample| sample.mistake.is_none() == sample.points.is_empty()));
    }
}
