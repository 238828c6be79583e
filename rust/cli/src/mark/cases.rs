//! The named cases: teaching/cases.txt, whose first lines say how it is written.

use super::hex::records;
use super::list::{erased_with, put, text, Fields, List, Play, Start};
use crate::{families, number, settings};
use proved::hex::Board;
use proved::{MAIN_RAM_BYTES, SECTOR_BYTES, SETTINGS_BYTES, TRANSFER_BYTES, XIP_RAM_BYTES};
use std::collections::HashMap;

const TEXT: &str = include_str!("../../../../teaching/cases.txt");

/// A named case.
#[derive(Clone, Debug)]
pub struct Case {
    pub id: String,
    /// The point of the three that it belongs to.
    pub point: usize,
    /// The requests of document 02 that it needs.
    pub needs: Vec<&'static str>,
    pub asks: String,
    pub paper: &'static str,
    /// The known mistakes that it shows.
    pub shows: Vec<&'static str>,
    /// Its list as the file writes it.
    pub written: String,
    pub play: Play,
}

/// All of them, in their order.
pub fn all() -> Vec<Case> {
    read(TEXT).unwrap_or_else(|why| panic!("teaching/cases.txt: {why}"))
}

type Keys = HashMap<&'static str, &'static str>;

/// Settings of cases: the start that they make.
type Boards = HashMap<&'static str, Start>;

fn read(text: &'static str) -> Result<Vec<Case>, String> {
    let (mut boards, mut cases) = (Boards::new(), Vec::new());
    let mut parts: Vec<Vec<&'static str>> = Vec::new();
    let mut inside = false;
    for line in text.lines().filter(|line| !line.starts_with('#')) {
        match line {
            "" if !inside => parts.push(Vec::new()),
            "end" => inside = false,
            _ => {
                inside |= line == "lines" || line.starts_with("settings ");
                if parts.is_empty() {
                    parts.push(Vec::new());
                }
                parts.last_mut().ok_or("no part")?.push(line);
            }
        }
    }
    let parts = parts.iter().filter(|part| !part.is_empty());
    let (named, others): (Vec<_>, Vec<_>) =
        parts.partition(|part| part[0].starts_with("settings "));
    for part in named {
        let (name, start) = board(part)?;
        boards.insert(name, start);
    }
    for part in others {
        cases.push(case(part, &boards).map_err(|why| format!("{}: {why}", part[0]))?);
    }
    Ok(cases)
}

/// `settings NAME flash=BYTES [main] [xip]`, and the settings' text.
fn board(part: &[&'static str]) -> Result<(&'static str, Start), String> {
    let mut words = part[0].split(' ').skip(1);
    let name = words.next().ok_or("settings without a name")?;
    let mut start = Start::program();
    for word in words {
        match word.split_once('=') {
            Some(("flash", bytes)) => start.flash = number::parse(bytes).ok_or(word)? as usize,
            _ if word == "main" => start.main = MAIN_RAM_BYTES,
            _ if word == "xip" => start.xip = XIP_RAM_BYTES,
            _ => return Err(format!("{name}: {word}")),
        }
    }
    let parsed = settings::parse(part[1..].join("\n").as_bytes())
        .map_err(|why| format!("{name}: {why:?}"))?;
    start.settings = parsed.settings.proved().bytes().to_vec();
    Ok((name, start))
}

fn case(part: &[&'static str], boards: &Boards) -> Result<Case, String> {
    let mut keys = Keys::new();
    let mut send = Vec::new();
    let mut lines = Vec::new();
    let mut inside = false;
    for line in part {
        let (key, value) = line.split_once(' ').unwrap_or((line, ""));
        match key {
            _ if inside => lines.push(*line),
            "lines" => inside = true,
            "send" => send.extend(value.split_whitespace()),
            _ if keys.insert(key, value).is_some() => return Err(format!("{key} is said twice")),
            _ => {}
        }
    }
    let said = |key: &str| keys.get(key).copied();
    let needed = |key: &str| said(key).ok_or(format!("no {key}"));
    let words = |key: &str| said(key).unwrap_or_default().split_whitespace().collect();
    let point = needed("point")?.parse().map_err(|_| "point")?;
    let play = match said("hex") {
        Some("V1") => Play::Hex(Board::V1, records(&lines)?),
        Some("V2") => Play::Hex(Board::V2, records(&lines)?),
        Some(name) => return Err(format!("hex {name}")),
        None => Play::Uf2(list(&send, &keys, boards)?),
    };
    Ok(Case {
        id: needed("case")?.into(),
        point,
        needs: words("needs"),
        asks: needed("asks")?.into(),
        paper: needed("paper")?,
        shows: words("shows"),
        written: match said("hex") {
            Some(_) => lines.join("; "),
            None => send.join(" "),
        },
        play,
    })
}

fn list(send: &[&str], keys: &Keys, boards: &Boards) -> Result<List, String> {
    let mut start = match keys.get("board") {
        Some(name) => boards
            .get(name)
            .ok_or(format!("no settings {name}"))?
            .clone(),
        None => Start::program(),
    };
    if let Some(state) = keys.get("state") {
        start.transfer = transfer(state)?;
    }
    for (key, map) in [("seen", &mut start.seen), ("sectors", &mut start.sectors)] {
        for word in keys
            .get(key)
            .copied()
            .unwrap_or_default()
            .split(' ')
            .filter(|word| !word.is_empty())
        {
            let k: usize = word.parse().map_err(|_| word)?;
            map[k / 8] |= 0x80 >> (k % 8);
        }
    }
    if let Some(fill) = keys.get("flash") {
        start.fill = number::parse(fill).ok_or(*fill)? as u8;
    }
    let mut arrivals = sent(&send.join(" "))?;
    for word in keys
        .get("lens")
        .copied()
        .unwrap_or_default()
        .split(' ')
        .filter(|word| !word.is_empty())
    {
        let (name, len) = word.split_once('=').ok_or(word)?;
        let len = number::parse(len).ok_or(word)? as usize;
        match name {
            "settings" => start.settings.resize(len, 0),
            "transfer" => start.transfer.resize(len, 0),
            "arrival" => arrivals.iter_mut().for_each(|piece| piece.resize(len, 0)),
            "flash" => start.flash = len,
            "seen" => start.seen.resize(len, 0),
            "sectors" => start.sectors.resize(len, 0),
            "main" => start.main = len,
            "xip" => start.xip = len,
            _ => return Err(word.into()),
        }
    }
    debug_assert!(start.settings.len() <= SETTINGS_BYTES && start.transfer.len() <= TRANSFER_BYTES);
    Ok(List {
        arrivals,
        start,
        twin: keys.contains_key("twin"),
    })
}

/// A transfer in words.
fn transfer(text: &str) -> Result<Vec<u8>, String> {
    let words: Vec<&str> = text.split(' ').collect();
    let number = |at: usize| {
        words
            .get(at)
            .and_then(|word| number::parse_u32(word))
            .ok_or(text.to_string())
    };
    let family = |at: usize| families::parse(words.get(at).copied().unwrap_or_default());
    let (state, family, total, count) = match words[0] {
        "idle" => (0, 0, 0, 0),
        "running" => (1, family(1)?, number(2)?, number(3)?),
        "done" => (2, family(1)?, number(2)?, number(2)?),
        "bytes" => {
            let digits = words.get(1).copied().unwrap_or_default();
            return super::hex::bytes_of(digits).ok_or(text.into());
        }
        _ => return Err(text.into()),
    };
    let mut bytes = vec![state];
    for x in [family, total, count] {
        bytes.extend_from_slice(&x.to_le_bytes());
    }
    bytes.push(0);
    Ok(bytes)
}

/// The arrivals of `send`.
pub fn sent(text: &str) -> Result<Vec<Vec<u8>>, String> {
    let mut arrivals = Vec::new();
    let mut regions = Vec::new();
    for word in text.split_whitespace() {
        let region = one(word, &mut arrivals).map_err(|why| format!("{word}: {why}"))?;
        regions.resize(arrivals.len(), region);
    }
    // what a region holds is known once all blocks are
    let plain = arrivals.clone();
    for (piece, region) in arrivals.iter_mut().zip(regions) {
        let Some((first, sectors)) = region else {
            continue;
        };
        let (total, family) = (super::list::get(piece, 24), super::list::get(piece, 28));
        let flash = erased_with(&plain, total, family, first + sectors);
        put(piece, 484, 0x1000_0000 + (first * SECTOR_BYTES) as u32);
        put(piece, 488, (sectors * SECTOR_BYTES) as u32);
        piece[492..508].copy_from_slice(&tools::md5(&flash[first * SECTOR_BYTES..]));
    }
    Ok(arrivals)
}

/// The region of a block, by its first sector and how many.
type Region = Option<(usize, usize)>;

/// The arrivals of one word of `send`.
fn one(word: &str, arrivals: &mut Vec<Vec<u8>>) -> Result<Region, String> {
    let mut parts = word.split(',');
    let head = parts.next().unwrap_or_default();
    let (numbers, total) = head.split_once('/').ok_or("NUMBER/TOTAL")?;
    let (first, last) = numbers.split_once('-').unwrap_or((numbers, numbers));
    let parsed = |text: &str| number::parse_u32(text).ok_or(text.to_string());
    let (first, last, total) = (parsed(first)?, parsed(last)?, parsed(total)?);
    let unusual: Vec<(&str, &str)> = parts
        .map(|part| part.split_once('=').ok_or(part))
        .collect::<Result<_, _>>()?;
    let steps: Vec<u32> = match first <= last {
        true => (first..=last).collect(),
        false => (last..=first).rev().collect(),
    };
    let mut region = None;
    for number in steps {
        let mut fields = Fields::usual(number, total);
        let (mut name, mut fill, mut cut) = ("page", None, 512);
        for (key, value) in &unusual {
            match *key {
                "at" => fields.address = parsed(value)?,
                "fam" => fields.family = families::parse(value)?,
                "flags" => fields.flags = parsed(value)?,
                "size" => fields.size = parsed(value)?,
                "m1" => fields.m1 = parsed(value)?,
                "m2" => fields.m2 = parsed(value)?,
                "m3" => fields.m3 = parsed(value)?,
                "text" => name = value,
                "fill" => fill = Some(parsed(value)? as u8),
                "cut" => cut = parsed(value)? as usize,
                "region" => {
                    let (sector, sectors) = value.split_once('+').ok_or("SECTOR+SECTORS")?;
                    region = Some((parsed(sector)? as usize, parsed(sectors)? as usize));
                    fields.flags |= 0x4000;
                }
                _ => return Err((*key).into()),
            }
        }
        let payload = fill.map_or_else(|| text(name, number, total), |byte| vec![byte; 256]);
        let mut block = fields.block(&payload);
        block.truncate(cut);
        arrivals.push(block);
    }
    Ok(region)
}

#[cfg(test)]
mod tests {
    use super::*;
    use crate::mark::set::Set;
    use std::collections::HashSet;

    #[test]
    fn every_case_is_read() {
        let cases = all();
        let ids: HashSet<&str> = cases.iter().map(|case| case.id.as_str()).collect();
        assert_eq!(ids.len(), cases.len(), "no name stands twice");
        let of = |point: usize| cases.iter().filter(|case| case.point == point).count();
        assert!(of(1) >= 12 && of(2) >= 100 && of(3) >= 40);
        assert_eq!(of(1) + of(2) + of(3), cases.len());
    }

    /// What a case does not name a request for, document 01 alone answers too. A case may name one and be answered alike: "Else as before" (02, L9).
    #[test]
    fn sets_are_named() {
        for case in all() {
            let Play::Uf2(list) = &case.play else {
                continue;
            };
            let kept = Set::default().list(list);
            let other =
                kept.arrivals.len() < list.arrivals.len() || list.start.main + list.start.xip > 0;
            assert!(!other || !case.needs.is_empty(), "{}", case.id);
        }
    }
}
