//! Every call of include/*.h beside the independent reference, on one input at a time: the answer, and every byte that is lent, must be the same.
//! Each slice that a call is lent ends at a page that may not be touched.
//!
//! libFuzzer hands over the inputs, guided by the branches of the reference (tools/fuzz). [`TARGETS`] has a name for each call. An input is bytes
//! of any length: see [`input`]. What differs ends the process with a sentence.

mod arrivals;
mod board;
mod calls;
mod fence;
mod files;
mod hex;
pub mod input;
mod receiver;
mod trace;

use std::cell::RefCell;

pub use calls::NAMES;
pub use receiver::Desk;

use input::Input;

type Target = fn(&mut Desk, &mut Input);

/// The calls, in the order of the headers.
pub const TARGETS: &[(&str, Target)] = &[
    ("uf2_new", receiver::new),
    ("uf2_ask", receiver::ask),
    ("uf2_look", receiver::look),
    ("uf2_take", receiver::take),
    ("uf2_accept", receiver::accept),
    ("uf2_take_all", receiver::take_all),
    ("uhex_new", hex::new),
    ("uhex_line", hex::line),
    ("uf2_tag_first", files::tag_first),
    ("uf2_tag", files::tag),
    ("uf2_tag_find", files::tag_find),
    ("uf2_make_check", files::make_check),
    ("uf2_make", files::make),
    ("uf2_make_regions", files::make_regions),
    ("uf2_make_block", files::make_block),
    ("uhex_join", hex::join),
    ("uf2_md5", files::md5),
    ("uf2_replay", trace::replay),
    ("uf2_figures", trace::figures),
    ("uf2_part_one", trace::part_one),
    ("uf2_part_merge", trace::part_merge),
    ("uf2_store_read", files::store_read),
    ("uf2_store_write", files::store_write),
    ("uf2_why", receiver::why),
    ("uf2_why_place", receiver::why_place),
    ("uf2_check", files::check),
    ("uf2_stands", receiver::stands),
];

/// The target of a call.
pub fn target(name: &str) -> Option<Target> {
    let found = TARGETS.iter().find(|(call, _)| *call == name);
    found.map(|&(_, target)| target)
}

/// Inputs as one file: each with its length before it, two bytes.
pub fn pack(inputs: &std::collections::BTreeSet<Vec<u8>>) -> Vec<u8> {
    let mut bytes = Vec::new();
    for input in inputs {
        let length = u16::try_from(input.len()).expect("an input of at most 65,535 bytes");
        bytes.extend_from_slice(&length.to_le_bytes());
        bytes.extend_from_slice(input);
    }
    bytes
}

/// And back.
pub fn packed(mut bytes: &[u8]) -> Vec<Vec<u8>> {
    let mut inputs = Vec::new();
    while let Some((length, rest)) = bytes.split_first_chunk() {
        let (input, rest) = rest.split_at(u16::from_le_bytes(*length).into());
        inputs.push(input.to_vec());
        bytes = rest;
    }
    inputs
}

thread_local! {
    static DESK: RefCell<Option<(Target, Desk)>> = const { RefCell::new(None) };
}

/// What libFuzzer calls with each input. The environment names the call: FUZZ_CALL.
///
/// # Safety
/// `data` points to `size` bytes.
#[no_mangle]
pub unsafe extern "C" fn LLVMFuzzerTestOneInput(data: *const u8, size: usize) -> i32 {
    let bytes = if size == 0 {
        &[]
    } else {
        // SAFETY: libFuzzer says so.
        unsafe { std::slice::from_raw_parts(data, size) }
    };
    DESK.with_borrow_mut(|desk| {
        let (target, desk) = desk.get_or_insert_with(|| {
            let name = std::env::var("FUZZ_CALL").unwrap_or_default();
            let Some(target) = target(&name) else {
                eprintln!("FUZZ_CALL names no call: {name:?}");
                std::process::exit(2);
            };
            (target, Desk::default())
        });
        target(desk, &mut Input(bytes));
    });
    0
}
