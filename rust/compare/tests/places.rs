//! Settings of every kind: both say the same of each place.

use compare::{any_settings, proved_settings, Random, FAMILIES};

#[test]
fn places_agree() {
    let mut r = Random(1);
    let mut found = [0u32; 9];
    for _ in 0..200_000 {
        let sectors = r.of(&[1, 2, 16, 40, 8192]);
        let s = any_settings(&mut r, sectors);
        let p = proved_settings(&s);
        let len = match r.below(12) {
            0 => r.of(&[0, 1, 4095, 4097, 33_554_432 + 4096, usize::MAX]),
            _ => sectors as usize * 4096,
        };
        for family in FAMILIES {
            let wanted = reference::ask_place(&s, len, family);
            let got = proved::ask(&p, len, family)
                .map(|place| (place.start as usize, place.len as usize))
                .map_err(proved::Answer::number);
            assert_eq!(got, wanted, "{s:?} {len} {family:x}");
            found[usize::from(wanted.err().unwrap_or(0))] += 1;
        }
    }
    // every answer came, and often
    for answer in [0, 1, 2, 8] {
        assert!(found[answer] > 10_000, "{found:?}");
    }
}
