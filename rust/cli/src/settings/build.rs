//! Settings of the items of a text.

use super::lex::{items, quoted, Item, Value};
use super::{Arch, Fault, Link, Partition, Settings, ACCEPTED, PARTITIONS, USERS};

/// Settings, and the line in which each partition begins.
#[derive(Clone, PartialEq, Eq, Debug)]
pub struct Parsed {
    /// The settings. Whether they are good for a board is for the library to say.
    pub settings: Settings,
    /// The line that says the current architecture.
    pub current: usize,
    /// The line of each partition's header.
    pub lines: Vec<usize>,
}

/// The settings of a text, or all that is wrong with it, in the order of its lines.
pub fn parse(text: &[u8]) -> Result<Parsed, Vec<Fault>> {
    let (items, mut faults) = items(text);
    let end = text.split(|&c| c == b'\n').count();
    let mut sections = sections(items).into_iter();
    let head = sections.next().unwrap_or_default();
    let (mut partitions, mut lines) = (Vec::new(), Vec::new());
    let (mut settings, current) = switches(head, end, &mut faults);
    for section in sections {
        lines.push(section.line);
        if lines.len() == PARTITIONS + 1 {
            section.fault(&mut faults, "a table has at most 16 partitions");
        }
        partitions.push(partition(section, &mut faults));
    }
    settings.partitions = partitions;
    faults.sort_by_key(|fault| fault.line);
    if faults.is_empty() {
        Ok(Parsed {
            settings,
            current,
            lines,
        })
    } else {
        Err(faults)
    }
}

/// The keys and values of the head or of a partition.
#[derive(Default)]
struct Section {
    line: usize,
    pairs: Vec<(usize, String, Value)>,
}

/// The head, and then the partitions.
fn sections(items: Vec<(usize, Item)>) -> Vec<Section> {
    let mut sections = vec![Section::default()];
    for (line, item) in items {
        match item {
            Item::Partition => sections.push(Section {
                line,
                pairs: Vec::new(),
            }),
            Item::Pair(key, value) => {
                if let Some(section) = sections.last_mut() {
                    section.pairs.push((line, key, value));
                }
            }
        }
    }
    sections
}

impl Section {
    fn fault(&self, faults: &mut Vec<Fault>, why: impl Into<String>) {
        let (line, why) = (self.line, why.into());
        faults.push(Fault { line, why });
    }

    /// Takes the value of a key, and its line. A key that is said twice is wrong.
    fn take(&mut self, key: &str, faults: &mut Vec<Fault>) -> Option<(usize, Value)> {
        let at = self.pairs.iter().position(|(_, name, _)| name == key)?;
        let (line, _, value) = self.pairs.remove(at);
        while let Some(at) = self.pairs.iter().position(|(_, name, _)| name == key) {
            let (again, ..) = self.pairs.remove(at);
            faults.push(Fault {
                line: again,
                why: format!("{key} is said twice; the first is in line {line}"),
            });
        }
        Some((line, value))
    }

    fn flag(&mut self, key: &str, faults: &mut Vec<Fault>) -> bool {
        match self.take(key, faults) {
            None => false,
            Some((_, Value::Flag(x))) => x,
            Some((line, value)) => {
                wrong(faults, line, key, "true or false", &value);
                false
            }
        }
    }

    /// A number up to a limit, with its line.
    fn number(&mut self, key: &str, most: u32, faults: &mut Vec<Fault>) -> Option<(usize, u32)> {
        let (line, value) = self.take(key, faults)?;
        match value {
            Value::Number(x) => match u32::try_from(x) {
                Ok(x) if x <= most => return Some((line, x)),
                _ => faults.push(Fault {
                    line,
                    why: format!("{key} = {x} is over the most, {most}"),
                }),
            },
            value => wrong(faults, line, key, "a number", &value),
        }
        Some((line, 0))
    }

    /// A number that must be there.
    fn needed(&mut self, key: &str, faults: &mut Vec<Fault>) -> u32 {
        match self.number(key, u32::MAX, faults) {
            Some((_, x)) => x,
            None => {
                self.fault(faults, format!("{key} is missing in this partition"));
                0
            }
        }
    }

    /// The values of a list, with its line.
    fn list(&mut self, key: &str, faults: &mut Vec<Fault>) -> Vec<(usize, Value)> {
        match self.take(key, faults) {
            None => Vec::new(),
            Some((line, Value::List(values))) => {
                values.into_iter().map(|value| (line, value)).collect()
            }
            Some((line, value)) => {
                wrong(faults, line, key, "a list", &value);
                Vec::new()
            }
        }
    }

    /// Whatever was not taken has a key that nobody knows.
    fn end(self, known: &str, faults: &mut Vec<Fault>) {
        for (line, key, _) in self.pairs {
            faults.push(Fault {
                line,
                why: format!("no key '{}' here; the keys are {known}", quoted(&key)),
            });
        }
    }
}

fn wrong(faults: &mut Vec<Fault>, line: usize, key: &str, wanted: &str, value: &Value) {
    faults.push(Fault {
        line,
        why: format!("{key} is {wanted}, and not {}", value.kind()),
    });
}

fn architecture(text: &str) -> Option<Arch> {
    match text {
        "arm" => Some(Arch::Arm),
        "riscv" => Some(Arch::RiscV),
        _ => None,
    }
}

/// The current architecture, and its line.
fn current(head: &mut Section, end: usize, faults: &mut Vec<Fault>) -> (Arch, usize) {
    const WANTED: &str = "current is \"arm\" or \"riscv\"";
    let fault = match head.take("current", faults) {
        None => Fault {
            line: end,
            why: format!("the text ends, and current is missing: {WANTED}"),
        },
        Some((line, Value::Text(text))) => match architecture(&text) {
            Some(arch) => return (arch, line),
            None => Fault {
                line,
                why: format!("{WANTED}, and not \"{}\"", quoted(&text)),
            },
        },
        Some((line, value)) => Fault {
            line,
            why: format!("{WANTED}, and not {}", value.kind()),
        },
    };
    faults.push(fault);
    (Arch::Arm, end)
}

/// The settings without partitions, and the line of the current architecture.
fn switches(mut head: Section, end: usize, faults: &mut Vec<Fault>) -> (Settings, usize) {
    let (current, line) = current(&mut head, end, faults);
    let settings = Settings {
        arm: head.flag("arm", faults),
        riscv: head.flag("riscv", faults),
        current,
        auto_switch: head.flag("auto-switch", faults),
        absolute: head.flag("absolute", faults),
        partitions: Vec::new(),
    };
    head.end(
        "arm, riscv, current, auto-switch and absolute, and those of a partition after [[partition]]",
        faults,
    );
    (settings, line)
}

fn partition(mut section: Section, faults: &mut Vec<Fault>) -> Partition {
    let mut partition = Partition {
        first: section.needed("first", faults),
        sectors: section.needed("sectors", faults),
        link: link(&mut section, faults),
        dont_restart: section.flag("dont-restart", faults),
        ..Partition::default()
    };
    for (line, value) in section.list("accepts", faults) {
        if let Err(why) = accept(&mut partition, value) {
            faults.push(Fault { line, why });
        }
    }
    for (line, value) in section.list("not-bootable", faults) {
        if let Err(why) = not_bootable(&mut partition, value) {
            faults.push(Fault { line, why });
        }
    }
    section.end(
        "first, sectors, accepts, not-bootable, owned-by, b-of and dont-restart",
        faults,
    );
    partition
}

fn link(section: &mut Section, faults: &mut Vec<Fault>) -> Link {
    let most = PARTITIONS as u32 - 1;
    let owner = section.number("owned-by", most, faults);
    let first = section.number("b-of", most, faults);
    match (owner, first) {
        (None, None) => Link::Unlinked,
        (Some((_, k)), None) => Link::OwnedBy(k as u8),
        (None, Some((_, k))) => Link::BOf(k as u8),
        (Some((a, _)), Some((b, _))) => {
            faults.push(Fault {
                line: a.max(b),
                why: "a partition has owned-by or b-of, and not both".into(),
            });
            Link::Unlinked
        }
    }
}

fn accept(partition: &mut Partition, value: Value) -> Result<(), String> {
    match value {
        Value::Number(x) => {
            let family =
                u32::try_from(x).map_err(|_| format!("{x} is no family: it has 32 bits"))?;
            if partition.users.len() == USERS {
                return Err("a partition accepts at most 4 user families".into());
            }
            partition.users.push(family);
            Ok(())
        }
        Value::Text(text) => {
            let slot = ACCEPTED.iter().position(|name| *name == text);
            match slot.and_then(|k| partition.accepts.get_mut(k)) {
                None => Err(format!(
                    "a partition cannot accept \"{}\": the names are data, arm-s, riscv and arm-ns, and others are numbers, such as 0x12345678",
                    quoted(&text)
                )),
                Some(true) => Err(format!("\"{text}\" is accepted twice")),
                Some(slot) => {
                    *slot = true;
                    Ok(())
                }
            }
        }
        value => Err(format!(
            "accepts lists names and numbers, and not {}",
            value.kind()
        )),
    }
}

fn not_bootable(partition: &mut Partition, value: Value) -> Result<(), String> {
    let arch = match &value {
        Value::Text(text) => architecture(text),
        _ => None,
    };
    let slot = match arch {
        Some(Arch::Arm) => &mut partition.not_bootable_arm,
        Some(Arch::RiscV) => &mut partition.not_bootable_riscv,
        None => return Err("not-bootable lists \"arm\" and \"riscv\"".into()),
    };
    if *slot {
        return Err("not-bootable names an architecture twice".into());
    }
    *slot = true;
    Ok(())
}
