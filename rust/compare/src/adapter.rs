//! The proved calls for files, for parts of reports and for pages that stand, as the reference has them: the tests call little else of them.

use reference::check::Found;
use reference::parts::Part;
use reference::Settings;
use tools::check::{Checked, Lens};
use tools::part::merge_bytes;

use crate::report::{plain_part, proved_part};
use crate::{proved_settings, Buffers};

/// The part of one trace, by the proved calls.
pub fn part_of(s: &Settings, trace: &[u8], lent: &mut Buffers) -> Result<Part, u32> {
    let mut report = tools::report::Report::FRESH;
    let added = tools::report::add(&mut report, &proved_settings(s), trace, &mut lent.lend());
    let part = added.and_then(|stop| tools::part::Part::one(&report, stop));
    part.map(|part| plain_part(&part))
        .map_err(|refusal| refusal.number().into())
}

/// A part and then a later one, by the proved call over bytes, whose bytes are the part whether or not it is refused; the wrapper says the same.
pub fn merge(a: &mut Part, b: &Part) -> Result<(), u32> {
    let (mut wrapped, later) = (proved_part(a), proved_part(b));
    let mut bytes = wrapped.bytes();
    let number = merge_bytes(&mut bytes, &later.bytes());
    let told = wrapped.merge(&later).map_err(|refusal| refusal.number());
    assert_eq!(told.err().map_or(0, u32::from), number, "the wrapper's");
    assert_eq!(wrapped.bytes(), bytes, "the wrapper's");
    *a = plain_part(&wrapped);
    if number == 0 {
        Ok(())
    } else {
        Err(number)
    }
}

/// A file, checked by the proved call for a board with these lengths of flash, main RAM and XIP RAM.
pub fn check(s: &Settings, file: &[u8], lens: [usize; 3]) -> Found {
    let [flash, main, xip] = lens;
    let lens = Lens { flash, main, xip };
    let got = tools::check::check(&proved_settings(s).bytes(), file, lens);
    let found = plain_found(got);
    assert_eq!(got.number(), found.number().into(), "{got:?}");
    found
}

fn plain_found(checked: Checked) -> Found {
    match checked {
        Checked::Valid => Found::Valid,
        Checked::BadBuffers => Found::BadBuffers,
        Checked::BadSettings => Found::BadSettings,
        Checked::Ragged => Found::Ragged,
        Checked::Empty => Found::Empty,
        Checked::Refused(piece, answer) => Found::Refused { piece, answer },
        Checked::OtherFamily(piece) => Found::OtherFamily { piece },
        Checked::OtherTotal(piece) => Found::OtherTotal { piece },
        Checked::OtherKind(piece) => Found::OtherKind { piece },
        Checked::SameNumber(piece, other) => Found::SameNumber { piece, other },
        Checked::Overlap(piece, other) => Found::Overlap { piece, other },
        Checked::Missing(number) => Found::Missing {
            number: number as u32,
        },
        Checked::Guarded(piece) => Found::Guarded { piece },
    }
}

/// Whether a page stands, by the proved call over bytes; the wrapper says the same.
pub fn stands(s: &Settings, arrival: &[u8], lent: &Buffers) -> u8 {
    let memory = proved::Memory {
        flash: &lent.flash,
        main: &lent.main,
        xip: &lent.xip,
    };
    let settings = proved_settings(s);
    let number = proved::bytes::stands(&settings.bytes(), arrival, &memory);
    let wrapped = match proved::stands(&settings, arrival, &memory) {
        Ok(stand) => stand as u32,
        Err(answer) => answer.number().into(),
    };
    assert_eq!(wrapped, number, "the wrapper's");
    number as u8
}
