//! The board that a file is played into: what its options say, and the memory that it lends.

use crate::args::{Args, Opt};
use crate::json::Json;
use crate::settings::{self, command::stored};
use crate::{files, Trouble};
use proved::{
    Answer, Arch, Buffers, Settings, Transfer, FLASH_MAX_BYTES, MAIN_RAM_BYTES, SECTOR_BYTES,
    SECTOR_MAP_BYTES, SEEN_MAP_BYTES, XIP_RAM_BYTES,
};
use tools::why::{explain, Lent, Reason};

/// The part of a page of help that is about the board.
pub const HELP: &str = "\
BOARD, where no option is said, is the board of `receive`: Arm alone, the family
absolute allowed, no partition table, no RAM, an erased flash; but the flash is
as large as the file and the partitions of --settings need, in whole sectors of
4,096 bytes.
  --flash BYTES         the flash's length: 4096, 0x8000, 64K, 2M; whole
                        sectors, at most 32M
  --settings STORE      the settings of a store, which `vantorel settings pack`
                        writes; none of the next five options stands beside it
  --arm --riscv         the architectures that are enabled; Arm, where neither
                        is said
  --current arm|riscv   the current one; Arm, where both are enabled
  --auto-switch         an image for the other architecture is placed as well
  --absolute            the family absolute is allowed. Where one of --arm,
                        --riscv, --current, --auto-switch is said, it is not
                        without this
  --main-ram --xip-ram  the board has main RAM (532,480 bytes), XIP RAM (16,384
                        bytes)
  --start-image FILE    what the flash holds before; 0xFF after the file's end
";

/// The options of a board.
pub const OPTIONS: &[Opt] = &[
    Opt::Value("--flash"),
    Opt::Input("--settings"),
    Opt::Flag("--arm"),
    Opt::Flag("--riscv"),
    Opt::Value("--current"),
    Opt::Flag("--auto-switch"),
    Opt::Flag("--absolute"),
    Opt::Flag("--main-ram"),
    Opt::Flag("--xip-ram"),
    Opt::Input("--start-image"),
];

/// The options that say settings one by one.
const SWITCHES: [&str; 5] = [
    "--arm",
    "--riscv",
    "--current",
    "--auto-switch",
    "--absolute",
];

/// The flash of `receive`, for a file that needs none.
const FLASH_BYTES: usize = 32_768;

/// A board and its memory.
#[derive(Clone)]
pub struct Board {
    /// The settings.
    pub settings: Settings,
    /// Where the flash's length comes from.
    length: Length,
    /// The words of the command line that make the same board again.
    pub words: Vec<String>,
    /// The flash.
    pub flash: Vec<u8>,
    /// The seen map.
    pub seen: Vec<u8>,
    /// The sector map.
    pub sectors: Vec<u8>,
    /// The main RAM; empty where there is none.
    pub main: Vec<u8>,
    /// The XIP RAM; empty where there is none.
    pub xip: Vec<u8>,
}

/// Where the length of a flash comes from.
#[derive(Clone, Copy, PartialEq, Eq)]
enum Length {
    /// It was said.
    Said,
    /// It is what the file needs.
    Needed,
    /// It is what the file and the partition table need.
    Table,
    /// The file needs no flash: that of `receive`.
    Plain,
}

/// What the options say, before the file is known.
pub struct Options {
    settings: Settings,
    flash: Option<usize>,
    main: bool,
    xip: bool,
    image: Option<Vec<u8>>,
    words: Vec<String>,
}

/// The settings of a store, or those that the options say.
fn settings(args: &Args) -> Result<Settings, Trouble> {
    let Some(name) = args.value("--settings") else {
        return switches(args);
    };
    match SWITCHES.iter().find(|option| args.is_said(option)) {
        None => stored(name),
        Some(option) => args.wrong(format!(
            "{option} and --settings do not go together: a store says every switch"
        )),
    }
}

/// The settings that the options say; those of `receive` where they say none.
fn switches(args: &Args) -> Result<Settings, Trouble> {
    let (arm, riscv) = (args.flag("--arm"), args.flag("--riscv"));
    let current = match args.value("--current") {
        None => None,
        Some("arm") => Some(Arch::Arm),
        Some("riscv") => Some(Arch::RiscV),
        Some(name) => return args.wrong(format!("--current is arm or riscv, and not '{name}'")),
    };
    let auto_switch = args.flag("--auto-switch");
    let plain = !arm && !riscv && current.is_none() && !auto_switch;
    let arm = arm || !riscv;
    let enabled = if arm { Arch::Arm } else { Arch::RiscV };
    Ok(Settings {
        arm,
        riscv,
        current: current.unwrap_or(enabled),
        auto_switch,
        absolute: plain || args.flag("--absolute"),
        ..Settings::ARM
    })
}

/// The flash that is said.
pub fn flash_len(args: &Args) -> Result<Option<usize>, Trouble> {
    let Some(x) = args.number("--flash")? else {
        return Ok(None);
    };
    let len = usize::try_from(x).unwrap_or(usize::MAX);
    // the library says which lengths are a flash's
    if proved::ask(&Settings::ARM, len, proved::family::ARM_S) == Err(Answer::BadBuffers) {
        return args.wrong(format!(
            "--flash is whole sectors of 4,096 bytes, from 4096 to 32M, and not {x} bytes"
        ));
    }
    Ok(Some(len))
}

impl Options {
    /// Reads the options, and the file of `--start-image`.
    pub fn read(args: &Args) -> Result<Options, Trouble> {
        Ok(Options {
            settings: settings(args)?,
            flash: flash_len(args)?,
            main: args.flag("--main-ram"),
            xip: args.flag("--xip-ram"),
            image: args.value("--start-image").map(files::read).transpose()?,
            words: args.said_of(OPTIONS),
        })
    }

    /// A board that takes what it can: both architectures, Arm current, absolute allowed, no table, both RAMs.
    pub fn widest() -> Options {
        Options {
            settings: Settings {
                riscv: true,
                absolute: true,
                ..Settings::ARM
            },
            flash: None,
            main: true,
            xip: true,
            image: None,
            words: Vec::new(),
        }
    }

    /// The same with one partition over a flash of so many bytes, which takes this family: for those that have no place without a table.
    pub fn for_family(family: u32, flash: usize) -> Options {
        let mut options = Options::widest();
        let entry = &mut options.settings.table[0];
        entry.sectors = (flash / SECTOR_BYTES) as u32;
        entry.arm_ns = family == proved::family::ARM_NS;
        if !entry.arm_ns {
            (entry.user_count, entry.users[0]) = (1, family);
        }
        options.settings.count = 1;
        options.flash = Some(flash);
        options
    }

    /// The flash, where its length was not said: what the file, the start image and the partitions need.
    fn needed(&self, need: Option<u64>) -> usize {
        let image = self.image.as_ref().map_or(0, Vec::len);
        let table = settings::need(&settings::Settings::from_proved(&self.settings));
        let need = need.unwrap_or(FLASH_BYTES as u64).max(table);
        let need = usize::try_from(need).unwrap_or(FLASH_MAX_BYTES).max(image);
        need.min(FLASH_MAX_BYTES)
            .next_multiple_of(SECTOR_BYTES)
            .max(SECTOR_BYTES)
    }

    /// The board, for a file whose pages need a flash of so many bytes.
    pub fn board(&self, need: Option<u64>) -> Result<Board, Trouble> {
        let len = self.flash.unwrap_or_else(|| self.needed(need));
        let mut flash = vec![0xFF; len];
        if let Some(image) = &self.image {
            let Some(part) = flash.get_mut(..image.len()) else {
                return Err(Trouble(format!(
                    "the start image has {} bytes, and the flash only {len}",
                    image.len()
                )));
            };
            part.copy_from_slice(image);
        }
        let mut words = self.words.clone();
        if self.flash.is_none() {
            words.splice(0..0, ["--flash".to_string(), len.to_string()]);
        }
        Ok(Board {
            settings: self.settings.clone(),
            length: match (self.flash, need) {
                (Some(_), _) => Length::Said,
                _ if self.settings.count > 0 => Length::Table,
                (None, Some(_)) => Length::Needed,
                (None, None) => Length::Plain,
            },
            words,
            flash,
            seen: vec![0; SEEN_MAP_BYTES],
            sectors: vec![0; SECTOR_MAP_BYTES],
            main: vec![0; if self.main { MAIN_RAM_BYTES } else { 0 }],
            xip: vec![0; if self.xip { XIP_RAM_BYTES } else { 0 }],
        })
    }
}

impl Board {
    /// What is lent with each arrival.
    pub fn buffers(&mut self) -> Buffers<'_> {
        Buffers {
            flash: &mut self.flash,
            seen: &mut self.seen,
            sectors: &mut self.sectors,
            main: &mut self.main,
            xip: &mut self.xip,
        }
    }

    /// Why an arrival is answered as it is, from where a transfer stands.
    pub fn reason(&self, transfer: Transfer, arrival: &[u8]) -> Reason {
        let lent = Lent {
            flash: &self.flash,
            seen: &self.seen,
            sectors: &self.sectors,
            main: &self.main,
            xip: &self.xip,
        };
        explain(&self.settings.bytes(), &transfer.bytes(), arrival, lent).reason
    }

    /// Whether nobody said how large the flash is. An answer may then be another than the site's though the site was right.
    pub fn is_guessed(&self) -> bool {
        self.length != Length::Said
    }

    /// What says that figures are of the same board: the MD5 digest of its settings, which RAM it has, and its flash, of a board that is fresh.
    pub fn digest(&self) -> [u8; tools::MD5_BYTES] {
        let mut bytes = self.settings.bytes().to_vec();
        bytes.extend([!self.main.is_empty(), !self.xip.is_empty()].map(u8::from));
        bytes.extend(&self.flash);
        tools::md5(&bytes)
    }

    /// A line about the board.
    pub fn line(&self) -> String {
        let len = self.flash.len();
        let why = match self.length {
            Length::Said => "",
            Length::Needed => " (none was said: as large as the file needs)",
            Length::Table => " (none was said: as large as the file and the partitions need)",
            Length::Plain => " (none was said: that of `receive`)",
        };
        let mut parts = vec![format!("board: a flash of {len} bytes{why}")];
        parts.push(self.architectures());
        if self.settings.auto_switch {
            parts.push("auto switch".into());
        }
        if self.settings.absolute {
            parts.push("absolute allowed".into());
        }
        parts.push(match self.settings.count {
            0 => "no partition table".into(),
            1 => "1 partition".into(),
            n => format!("{n} partitions"),
        });
        parts.push(self.rams().into());
        parts.join(", ")
    }

    fn architectures(&self) -> String {
        let current = match self.settings.current {
            Arch::Arm => "Arm",
            Arch::RiscV => "RISC-V",
        };
        match (self.settings.arm, self.settings.riscv) {
            (true, true) => format!("Arm and RISC-V, {current} current"),
            (false, false) => format!("no architecture, {current} current"),
            (true, false) if self.settings.current == Arch::Arm => "Arm".into(),
            (false, true) if self.settings.current == Arch::RiscV => "RISC-V".into(),
            (true, false) => "Arm, RISC-V current".into(),
            (false, true) => "RISC-V, Arm current".into(),
        }
    }

    fn rams(&self) -> &'static str {
        match (self.main.is_empty(), self.xip.is_empty()) {
            (true, true) => "no RAM",
            (false, true) => "main RAM",
            (true, false) => "XIP RAM",
            (false, false) => "main RAM and XIP RAM",
        }
    }

    /// The board for scripts.
    pub fn json(&self) -> Json {
        let name = match self.settings.current {
            Arch::Arm => "arm",
            Arch::RiscV => "riscv",
        };
        Json::Object(vec![
            ("flash", self.flash.len().into()),
            ("flash_said", (self.length == Length::Said).into()),
            ("arm", self.settings.arm.into()),
            ("riscv", self.settings.riscv.into()),
            ("current", name.into()),
            ("auto_switch", self.settings.auto_switch.into()),
            ("absolute", self.settings.absolute.into()),
            ("partitions", u32::from(self.settings.count).into()),
            ("main_ram", (!self.main.is_empty()).into()),
            ("xip_ram", (!self.xip.is_empty()).into()),
        ])
    }
}

#[cfg(test)]
mod tests {
    use super::*;

    fn board(line: &str, need: Option<u64>) -> Board {
        let words = line.split_whitespace().map(String::from).collect();
        let args = Args::parse("load", &[OPTIONS], words).ok().expect(line);
        let options = Options::read(&args).ok().expect(line);
        options.board(need).ok().expect(line)
    }

    #[test]
    fn the_board_of_receive() {
        let plain = board("", None);
        assert_eq!(
            plain.line(),
            "board: a flash of 32768 bytes (none was said: that of `receive`), Arm, absolute allowed, no partition table, no RAM"
        );
        assert!(plain.flash.iter().all(|&byte| byte == 0xFF));
    }

    #[test]
    fn as_large_as_the_file_needs() {
        for (need, len) in [
            (1, 4096),
            (4096, 4096),
            (4097, 8192),
            (u64::MAX, 33_554_432),
        ] {
            assert_eq!(board("", Some(need)).flash.len(), len);
        }
        assert_eq!(board("--flash 8192", Some(1)).flash.len(), 8192);
    }

    #[test]
    fn switches() {
        for (line, words) in [
            ("--arm", "Arm, no partition"),
            ("--arm --absolute", "Arm, absolute allowed, no"),
            ("--riscv", "RISC-V, no partition"),
            ("--current riscv", "Arm, RISC-V current, no"),
            (
                "--arm --riscv --auto-switch",
                "Arm and RISC-V, Arm current, auto switch, no",
            ),
            ("--absolute", "Arm, absolute allowed, no"),
            ("--main-ram --xip-ram", "main RAM and XIP RAM"),
        ] {
            let told = board(line, None).line();
            assert!(told.contains(words), "{line}: {told}");
        }
    }
}
