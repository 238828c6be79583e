//! Settings as a text, with what they come to in words.

use super::{Arch, Link, Partition, Settings, ACCEPTED};
use std::fmt::Write;

const SECTOR_BYTES: u64 = 4096;

/// The text of settings, which [`parse`](super::parse) reads back.
pub fn show(settings: &Settings) -> String {
    let mut text = String::new();
    put(&mut text, head(settings));
    put(&mut text, format!("arm = {}", settings.arm));
    put(&mut text, format!("riscv = {}", settings.riscv));
    put(
        &mut text,
        format!("current = \"{}\"", name(settings.current)),
    );
    put(&mut text, format!("auto-switch = {}", settings.auto_switch));
    put(&mut text, format!("absolute = {}", settings.absolute));
    for (k, partition) in settings.partitions.iter().enumerate() {
        put(&mut text, String::new());
        put(&mut text, format!("# partition {k}: {}", words(partition)));
        lines(&mut text, partition);
    }
    text
}

fn put(text: &mut String, line: String) {
    // writing to a string cannot fail
    let _ = writeln!(text, "{line}");
}

fn name(arch: Arch) -> &'static str {
    match arch {
        Arch::Arm => "arm",
        Arch::RiscV => "riscv",
    }
}

/// How much flash the partitions need.
pub fn need(settings: &Settings) -> u64 {
    let ends = settings.partitions.iter().map(end);
    ends.max().unwrap_or(0)
}

fn end(partition: &Partition) -> u64 {
    (u64::from(partition.first) + u64::from(partition.sectors)) * SECTOR_BYTES
}

fn head(settings: &Settings) -> String {
    match settings.partitions.len() {
        0 => "# settings of a board without a partition table".into(),
        1 => format!(
            "# settings of a board with 1 partition, which needs a flash of {} bytes",
            need(settings)
        ),
        n => format!(
            "# settings of a board with {n} partitions, which need a flash of {} bytes",
            need(settings)
        ),
    }
}

fn words(partition: &Partition) -> String {
    let place = match partition.sectors {
        0 => "no sectors".into(),
        _ => format!(
            "flash 0x{:08x} to 0x{:08x}",
            u64::from(partition.first) * SECTOR_BYTES,
            end(partition) - 1
        ),
    };
    let link = match partition.link {
        Link::Unlinked => "an A partition, unowned".into(),
        Link::OwnedBy(k) => format!("an A partition, owned by partition {k}"),
        Link::BOf(k) => format!("the B partition of partition {k}"),
    };
    format!("{place}, {link}")
}

fn lines(text: &mut String, partition: &Partition) {
    put(text, "[[partition]]".into());
    put(text, format!("first = {}", partition.first));
    put(text, format!("sectors = {}", partition.sectors));
    put(text, format!("accepts = [{}]", accepts(partition)));
    let marks = [
        (partition.not_bootable_arm, "\"arm\""),
        (partition.not_bootable_riscv, "\"riscv\""),
    ];
    let marked: Vec<&str> = marks
        .iter()
        .filter(|(on, _)| *on)
        .map(|(_, name)| *name)
        .collect();
    if !marked.is_empty() {
        put(text, format!("not-bootable = [{}]", marked.join(", ")));
    }
    match partition.link {
        Link::Unlinked => {}
        Link::OwnedBy(k) => put(text, format!("owned-by = {k}")),
        Link::BOf(k) => put(text, format!("b-of = {k}")),
    }
    if partition.dont_restart {
        put(text, "dont-restart = true".into());
    }
}

fn accepts(partition: &Partition) -> String {
    let names = ACCEPTED.iter().zip(partition.accepts);
    let names = names
        .filter(|(_, on)| *on)
        .map(|(name, _)| format!("\"{name}\""));
    let users = partition.users.iter().map(|x| format!("0x{x:08x}"));
    names.chain(users).collect::<Vec<String>>().join(", ")
}
