//! `vantorel settings`: a store shown, and a store packed from a text.

use super::{parse, show, Arch, Fault, Link, Parsed, Partition, Settings, ACCEPTED};
use crate::args::{Args, Opt};
use crate::board::flash_len;
use crate::json::Json;
use crate::number::count;
use crate::out::Out;
use crate::{files, reason, system, End, Outcome, Trouble};
use proved::store::{self, Refusal};
use proved::FLASH_MAX_BYTES;
use tools::why::{explain_place, Reason};

/// Its page of help.
pub const HELP: &str = "\
vantorel settings show STORE [--flash BYTES] [--json]
vantorel settings pack FILE.toml -o STORE [--flash BYTES] [--json]

`show` prints the settings that a board keeps in a store, as a text that `pack`
takes again. `pack` writes the store of a text; every error of the text is told
with its line, and then nothing is written. The text is a small part of TOML:

    arm = true                 # arm, riscv, auto-switch, absolute: false
                               # where they are not said
    current = \"arm\"            # \"arm\" or \"riscv\", always said
    [[partition]]              # partition 0; at most 16, in table order
    first = 2                  # the first sector, of 4,096 bytes
    sectors = 64
    accepts = [\"arm-s\", \"data\", 0x12345678]  # data, arm-s, riscv, arm-ns,
                               # and up to 4 user families by number
    [[partition]]              # partition 1
    first = 66
    sectors = 64
    accepts = [\"arm-s\"]
    b-of = 0                   # the B partition of partition 0; or owned-by = 0
    not-bootable = [\"riscv\"]   # \"arm\", \"riscv\"
    dont-restart = true

  -o STORE       the store to write
  --flash BYTES  the flash that the settings must be good for; 32M, the largest,
                 where it is not said
  --json         the same for scripts

Exit status 0 where the settings were shown or the store was written, 1 where
they are no settings, 2 for a wrong command line or a file that cannot be read
or written.

    vantorel settings pack board.toml -o board.store

";

/// Errors of a text that get a line each; the others are counted.
const LISTED: usize = 20;

/// Its options.
pub const OPTIONS: &[Opt] = &[
    Opt::Output("-o"),
    Opt::Value("--flash"),
    Opt::Flag("--json"),
];

/// Runs the command.
pub fn run(args: &Args, out: &mut Out) -> Outcome {
    let words = args.some_files("show STORE, or pack FILE.toml,")?;
    let flash = flash_len(args)?.unwrap_or(FLASH_MAX_BYTES);
    match words.first() {
        Some(&"show") => {
            if args.value("-o").is_some() {
                return args.wrong("-o is for `settings pack`; `settings show` prints");
            }
            let [_, name] = args.files(["show", "STORE"])?;
            shown(args, name, flash, out)
        }
        Some(&"pack") => {
            let [_, name] = args.files(["pack", "FILE.toml"])?;
            packed(args, name, flash, out)
        }
        _ => args.wrong(format!(
            "it is show or pack, and not '{}'",
            words.first().unwrap_or(&"")
        )),
    }
}

/// The settings of the store in a file, for the board of another command. Every store fits the largest flash; whether the settings are good for
/// the board's own is for the library to say.
pub fn stored(name: &str) -> Result<proved::Settings, Trouble> {
    let bytes = files::read(name)?;
    store::read(&bytes, FLASH_MAX_BYTES)
        .map_err(|why| Trouble(refused(name, &bytes, FLASH_MAX_BYTES, why)))
}

/// Why settings are bad for a flash, where they are.
fn fault(settings: &proved::Settings, flash: usize) -> Option<Reason> {
    let why = explain_place(&settings.bytes(), flash, proved::family::ARM_S);
    let bad = u32::from(proved::Answer::BadSettings.number());
    (why.result == bad).then_some(why.reason)
}

/// Why a file is no store, in a sentence.
fn refused(name: &str, bytes: &[u8], flash: usize, why: Refusal) -> String {
    let more = match why {
        Refusal::BadLength => format!(": it has {}", count(bytes.len() as u64, "byte")),
        // what is bad for this flash may be good for the largest, and can then be told
        Refusal::BadSettings => match store::read(bytes, FLASH_MAX_BYTES) {
            Ok(settings) => match fault(&settings, flash) {
                Some(reason) => format!(": {}", reason::of(&reason)),
                None => String::new(),
            },
            Err(_) => ", for any flash".into(),
        },
        _ => String::new(),
    };
    let number = why.number();
    format!("{name} is no store of this board: {number} {why:?}: {why}{more}")
}

fn shown(args: &Args, name: &str, flash: usize, out: &mut Out) -> Outcome {
    let bytes = files::read(name)?;
    let read = store::read(&bytes, flash);
    if args.flag("--json") {
        let settings = read.as_ref().ok().map(Settings::from_proved);
        out.line(Json::Object(vec![
            ("store", name.into()),
            ("bytes", bytes.len().into()),
            ("flash", flash.into()),
            ("settings", settings.map(|x| json(&x)).into()),
            (
                "refusal",
                read.as_ref()
                    .err()
                    .map(|why| u32::from(why.number()))
                    .into(),
            ),
        ]));
    } else if let Ok(settings) = &read {
        out.text(show(&Settings::from_proved(settings)));
    }
    Ok(match read {
        Ok(_) => End::Whole,
        Err(why) => {
            out.note(refused(name, &bytes, flash, why));
            End::Short
        }
    })
}

/// The store of a text, or what is wrong with it.
fn pack(text: &[u8], flash: usize) -> Result<(Settings, Vec<u8>), Vec<Fault>> {
    let Parsed {
        settings,
        current,
        lines,
    } = parse(text)?;
    let proved = settings.proved();
    let mut bytes = vec![0; store::MAX_BYTES];
    match store::write(&proved, flash, &mut bytes) {
        Ok(len) => {
            bytes.truncate(len);
            Ok((settings, bytes))
        }
        Err(refusal) => Err(vec![match fault(&proved, flash) {
            // the current architecture is the one that is no partition's
            Some(why) => Fault {
                line: match why.cause {
                    ..203 => current,
                    _ => lines
                        .get(usize::from(why.entry))
                        .copied()
                        .unwrap_or(current),
                },
                why: reason::of(&why),
            },
            None => Fault {
                line: current,
                why: format!("{} {refusal:?}: {refusal}", refusal.number()),
            },
        }]),
    }
}

fn packed(args: &Args, name: &str, flash: usize, out: &mut Out) -> Outcome {
    let to = args.needed("-o", "the name of the store to write")?;
    let packed = pack(&system::utf8(&files::read(name)?), flash);
    if let Ok((_, bytes)) = &packed {
        files::write(to, bytes)?;
    }
    if args.flag("--json") {
        let faults = packed.as_ref().err().into_iter().flatten();
        let bytes = packed.as_ref().map_or(0, |(_, bytes)| bytes.len());
        out.line(Json::Object(vec![
            ("text", name.into()),
            ("out", to.into()),
            ("written", packed.is_ok().into()),
            ("bytes", bytes.into()),
            ("faults", Json::list(faults.map(fault_json))),
        ]));
    } else if let Ok((settings, bytes)) = &packed {
        out.line(told(to, settings, bytes));
    }
    let Err(faults) = packed else {
        return Ok(End::Whole);
    };
    for fault in faults.iter().take(LISTED) {
        out.note(format_args!("{name}, {fault}"));
    }
    if faults.len() > LISTED {
        out.note(format_args!("{name}, and {} more", faults.len() - LISTED));
    }
    out.note(format_args!(
        "nothing was written: {} in {name}",
        count(faults.len() as u64, "error")
    ));
    Ok(End::Short)
}

/// What was packed.
fn told(to: &str, settings: &Settings, bytes: &[u8]) -> String {
    let table = match settings.partitions.len() {
        0 => "no partition table".into(),
        n => format!(
            "{}, a flash of {} bytes or more",
            count(n as u64, "partition"),
            super::need(settings)
        ),
    };
    format!(
        "{}: a store of {}, {table}",
        files::short(to),
        count(bytes.len() as u64, "byte")
    )
}

fn fault_json(fault: &Fault) -> Json {
    Json::Object(vec![
        ("line", fault.line.into()),
        ("why", fault.why.as_str().into()),
    ])
}

fn name(arch: Arch) -> &'static str {
    match arch {
        Arch::Arm => "arm",
        Arch::RiscV => "riscv",
    }
}

fn json(settings: &Settings) -> Json {
    Json::Object(vec![
        ("arm", settings.arm.into()),
        ("riscv", settings.riscv.into()),
        ("current", name(settings.current).into()),
        ("auto_switch", settings.auto_switch.into()),
        ("absolute", settings.absolute.into()),
        (
            "partitions",
            Json::list(settings.partitions.iter().map(partition_json)),
        ),
    ])
}

fn partition_json(partition: &Partition) -> Json {
    let accepted = ACCEPTED.into_iter().zip(partition.accepts);
    let accepted = accepted.filter(|(_, on)| *on).map(|(name, _)| name);
    let (owned_by, b_of) = match partition.link {
        Link::Unlinked => (None, None),
        Link::OwnedBy(k) => (Some(u32::from(k)), None),
        Link::BOf(k) => (None, Some(u32::from(k))),
    };
    Json::Object(vec![
        ("first", partition.first.into()),
        ("sectors", partition.sectors.into()),
        ("accepts", Json::list(accepted)),
        ("users", Json::list(partition.users.iter().copied())),
        ("not_bootable_arm", partition.not_bootable_arm.into()),
        ("not_bootable_riscv", partition.not_bootable_riscv.into()),
        ("owned_by", owned_by.into()),
        ("b_of", b_of.into()),
        ("dont_restart", partition.dont_restart.into()),
    ])
}
