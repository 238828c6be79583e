//! Texts of settings, good and bad.

use super::*;

const EXAMPLE: &str = "\
# a display with two slots
arm = true
current = \"arm\"   # a # in a comment
auto-switch = false

[[partition]]
first = 2
sectors = 0x40
accepts = [\"arm-s\", \"data\", 0x1234_5678,]

[[ partition ]]
first = 66
sectors = 6_4
accepts = []
b-of = 0
not-bootable = [\"riscv\"]
dont-restart = true
";

fn example() -> Settings {
    Settings {
        arm: true,
        riscv: false,
        current: Arch::Arm,
        auto_switch: false,
        absolute: false,
        partitions: vec![
            Partition {
                first: 2,
                sectors: 64,
                accepts: [true, true, false, false],
                users: vec![0x1234_5678],
                ..Partition::default()
            },
            Partition {
                first: 66,
                sectors: 64,
                not_bootable_riscv: true,
                link: Link::BOf(0),
                dont_restart: true,
                ..Partition::default()
            },
        ],
    }
}

fn faults(text: &str) -> Vec<String> {
    let faults = parse(text.as_bytes()).expect_err(text);
    faults.iter().map(Fault::to_string).collect()
}

#[test]
fn a_text() {
    let parsed = parse(EXAMPLE.as_bytes()).expect("good");
    assert_eq!(parsed.settings, example());
    assert_eq!((parsed.current, &parsed.lines[..]), (3, &[6, 11][..]));
    let lines = EXAMPLE.replace('\n', "\r\n");
    assert_eq!(parse(lines.as_bytes()), Ok(parsed.clone()));
    let marked = format!("\u{feff}{EXAMPLE}");
    assert_eq!(parse(marked.as_bytes()), Ok(parsed));
}

#[test]
fn shown() {
    assert_eq!(
        show(&example()),
        "# settings of a board with 2 partitions, which need a flash of 532480 bytes\n\
         arm = true\n\
         riscv = false\n\
         current = \"arm\"\n\
         auto-switch = false\n\
         absolute = false\n\
         \n\
         # partition 0: flash 0x00002000 to 0x00041fff, an A partition, unowned\n\
         [[partition]]\n\
         first = 2\n\
         sectors = 64\n\
         accepts = [\"data\", \"arm-s\", 0x12345678]\n\
         \n\
         # partition 1: flash 0x00042000 to 0x00081fff, the B partition of partition 0\n\
         [[partition]]\n\
         first = 66\n\
         sectors = 64\n\
         accepts = []\n\
         not-bootable = [\"riscv\"]\n\
         b-of = 0\n\
         dont-restart = true\n"
    );
}

/// A number of chance below a limit.
fn below(state: &mut u64, limit: u64) -> u64 {
    *state = state
        .wrapping_mul(6_364_136_223_846_793_005)
        .wrapping_add(1);
    (*state >> 33) % limit
}

fn any_partition(state: &mut u64) -> Partition {
    let mut flag = || below(state, 2) == 1;
    let accepts = [flag(), flag(), flag(), flag()];
    let (not_bootable_arm, not_bootable_riscv, dont_restart) = (flag(), flag(), flag());
    let users = (0..below(state, 5))
        .map(|_| below(state, 1 << 31) as u32)
        .collect();
    Partition {
        first: below(state, 1 << 31) as u32,
        sectors: below(state, 1 << 31) as u32,
        accepts,
        users,
        not_bootable_arm,
        not_bootable_riscv,
        link: match below(state, 3) {
            0 => Link::Unlinked,
            1 => Link::OwnedBy(below(state, 16) as u8),
            _ => Link::BOf(below(state, 16) as u8),
        },
        dont_restart,
    }
}

#[test]
fn shown_and_read_again() {
    let state = &mut 1;
    for _ in 0..2000 {
        let settings = Settings {
            arm: below(state, 2) == 1,
            riscv: below(state, 2) == 1,
            current: [Arch::Arm, Arch::RiscV][below(state, 2) as usize],
            auto_switch: below(state, 2) == 1,
            absolute: below(state, 2) == 1,
            partitions: (0..below(state, 17))
                .map(|_| any_partition(state))
                .collect(),
        };
        let parsed = parse(show(&settings).as_bytes()).expect("what is shown is good");
        assert_eq!(parsed.settings, settings);
        assert_eq!(Settings::from_proved(&settings.proved()), settings);
    }
}

/// The library takes what a text says: the B partition is no place, and the A partition is.
#[test]
fn the_library_reads_it() {
    let settings = example().proved();
    let place = proved::ask(&settings, 2_097_152, proved::family::ARM_S);
    assert_eq!(
        place,
        Ok(proved::Place {
            start: 8192,
            len: 262_144
        })
    );
    let place = proved::ask(&settings, 8192, proved::family::ARM_S);
    assert_eq!(place, Err(proved::Answer::BadSettings));
}

#[test]
fn every_error_has_its_line() {
    for (text, told) in [
        ("", "line 1: the text ends, and current is missing: current is \"arm\" or \"riscv\""),
        ("arm = true\n", "line 2: the text ends, and current is missing: current is \"arm\" or \"riscv\""),
        ("current = \"x86\"", "line 1: current is \"arm\" or \"riscv\", and not \"x86\""),
        ("current = 1", "line 1: current is \"arm\" or \"riscv\", and not a number"),
        ("current = \"arm\"\narm = yes", "line 2: 'yes' is no value: a value is true, false, a number such as 64 or 0x40, a text between double quotes, or a list of these in [ ]"),
        ("current = \"arm\"\narm = 1", "line 2: arm is true or false, and not a number"),
        ("current = \"arm\"\narm =", "line 2: a value is missing"),
        ("current = \"arm\"\narm", "line 2: 'arm' is neither key = value nor [[partition]]"),
        ("current = \"arm\"\na b = 1", "line 2: 'a b' is no key"),
        ("current = \"arm\"\n= 1", "line 2: '' is no key"),
        ("current = \"arm\"\nflash = 1", "line 2: no key 'flash' here; the keys are arm, riscv, current, auto-switch and absolute, and those of a partition after [[partition]]"),
        ("current = \"arm\"\narm = true\narm = true", "line 3: arm is said twice; the first is in line 2"),
        ("current = \"arm\"\n[partition]", "line 2: '[partition]' is no header; the only one is [[partition]]"),
        ("current = \"arm\"\n[[entry]]", "line 2: '[[entry]]' is no header; the only one is [[partition]]"),
        ("current = \"arm\"\n[[partition]]\nfirst = 1", "line 2: sectors is missing in this partition"),
        ("current = \"arm\"\n[[partition]]\nsectors = 1", "line 2: first is missing in this partition"),
        ("current = \"arm", "line 1: \"arm is no text between double quotes"),
        ("current = \"a\\n\"", "line 1: \"a\\n\" is no text between double quotes"),
        ("current = 'arm'", "line 1: ''arm'' is no value: a value is true, false, a number such as 64 or 0x40, a text between double quotes, or a list of these in [ ]"),
    ] {
        assert_eq!(faults(text).first().map(String::as_str), Some(told), "{text}");
    }
    let bytes = b"current = \"arm\"\n\xFF\n";
    let faults = parse(bytes).expect_err("no text");
    assert_eq!(faults[0].to_string(), "line 2: it is not text in UTF-8");
}

#[test]
fn errors_in_a_partition() {
    for (line, told) in [
        ("accepts = \"data\"", "accepts is a list, and not a text"),
        ("accepts = [\"absolute\"]", "a partition cannot accept \"absolute\": the names are data, arm-s, riscv and arm-ns, and others are numbers, such as 0x12345678"),
        ("accepts = [\"data\", \"data\"]", "\"data\" is accepted twice"),
        ("accepts = [1, 2, 3, 4, 5]", "a partition accepts at most 4 user families"),
        ("accepts = [0x1_0000_0000]", "4294967296 is no family: it has 32 bits"),
        ("accepts = [true]", "accepts lists names and numbers, and not true or false"),
        ("accepts = [1", "a list ends with ] on the same line"),
        ("accepts = [1,,2]", "a value is missing"),
        ("not-bootable = [\"x86\"]", "not-bootable lists \"arm\" and \"riscv\""),
        ("not-bootable = [\"arm\", \"arm\"]", "not-bootable names an architecture twice"),
        ("not-bootable = true", "not-bootable is a list, and not true or false"),
        ("b-of = 16", "b-of = 16 is over the most, 15"),
        ("owned-by = \"0\"", "owned-by is a number, and not a text"),
        ("dont-restart = 1", "dont-restart is true or false, and not a number"),
        ("first = 3", "first is said twice; the first is in line 3"),
        ("first_sector = 3", "no key 'first_sector' here; the keys are first, sectors, accepts, not-bootable, owned-by, b-of and dont-restart"),
        ("b-of = -1", "'-1' is no value: a value is true, false, a number such as 64 or 0x40, a text between double quotes, or a list of these in [ ]"),
        ("b-of = 007", "'007' is no value: a value is true, false, a number such as 64 or 0x40, a text between double quotes, or a list of these in [ ]"),
        ("b-of = 1__0", "'1__0' is no value: a value is true, false, a number such as 64 or 0x40, a text between double quotes, or a list of these in [ ]"),
    ] {
        let text = format!("current = \"arm\"\n[[partition]]\nfirst = 1\nsectors = 1\n{line}\n");
        assert_eq!(faults(&text), [format!("line 5: {told}")]);
    }
    let both = "current = \"arm\"\n[[partition]]\nfirst = 4294967296\nsectors = 1\nb-of = 0\nowned-by = 0\n";
    assert_eq!(
        faults(both),
        [
            "line 3: first = 4294967296 is over the most, 4294967295",
            "line 6: a partition has owned-by or b-of, and not both"
        ]
    );
    let many = format!(
        "current = \"arm\"\n{}",
        "[[partition]]\nfirst = 1\nsectors = 1\n".repeat(18)
    );
    assert_eq!(
        faults(&many),
        ["line 50: a table has at most 16 partitions"]
    );
}

/// All errors of a text are told at once.
#[test]
fn all_errors() {
    let text = "arm = 1\nriscv = 2\n[[partition]]\nfirst = x\n";
    let told = faults(text);
    assert_eq!(told.len(), 6, "{told:?}");
    assert!(told[0].starts_with("line 1: arm") && told[1].starts_with("line 2: riscv"));
}
