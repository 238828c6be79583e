//! Files made of images, and digests: the proved tools beside the reference, at every edge; and a made file in both receivers.

use compare::{arm_only, proved_settings, proved_transfer, Buffers, Random};
use reference::{Kind, Transfer, ARM_S};
use tools::{check, make, make_regions, write_block, Fields, BLOCK_BYTES, PAGE_BYTES};

const STARTS: [u32; 12] = [
    0,
    0x0fff_ff00,
    0x1000_0000,
    0x1000_0001,
    0x1000_0080,
    0x1000_0100,
    0x11ff_e000,
    0x11ff_ff00,
    0x11ff_ff01,
    0x1200_0000,
    0x2000_0000,
    0xffff_ff00,
];

fn any_image(r: &mut Random, len: usize) -> Vec<u8> {
    (0..len).map(|_| r.draw() as u8).collect()
}

/// Both makers on one image, with an output of so many bytes: the same answer, and the same output.
fn both(r: &mut Random, image: &[u8], start: u32, output_len: usize) -> Result<usize, u32> {
    let family = r.of(&[0, ARM_S, 0xe48b_ff57, u32::MAX]);
    let mut ours: Vec<u8> = (0..output_len).map(|i| i as u8 ^ 0xA5).collect();
    let mut theirs = ours.clone();
    let answer = make(image, family, start, &mut ours).map_err(|refusal| refusal.number());
    assert_eq!(
        answer,
        reference::make::make(image, family, start, &mut theirs)
    );
    assert_eq!(
        answer,
        check(image.len(), start, output_len).map_err(|refusal| refusal.number())
    );
    assert!(ours == theirs, "the two outputs");
    let mut ours: Vec<u8> = (0..output_len).map(|i| i as u8 ^ 0x5A).collect();
    let mut theirs = ours.clone();
    let named = make_regions(image, family, start, &mut ours).map_err(|refusal| refusal.number());
    assert_eq!(
        named,
        reference::make::make_regions(image, family, start, &mut theirs)
    );
    assert_eq!(named, answer);
    assert!(ours == theirs, "the two outputs with regions");
    answer
}

#[test]
fn files_agree() {
    let mut r = Random(11);
    let mut met = [0; 5];
    for _ in 0..20_000 {
        let pages = r.below(41) as usize;
        let ragged = r.of(&[0, 0, 0, 0, 1, 128, 255]);
        let image = any_image(&mut r, pages * PAGE_BYTES + ragged);
        let start = if r.one_in(2) {
            0x1000_0000 + 256 * r.below(131_072) as u32
        } else {
            r.of(&STARTS)
        };
        let exact = pages * BLOCK_BYTES;
        let room = r.of(&[
            exact,
            exact,
            exact + 1,
            exact + 700,
            exact.saturating_sub(1),
            0,
        ]);
        match both(&mut r, &image, start, room) {
            Ok(_) => met[0] += 1,
            Err(number) => met[number as usize - 49] += 1,
        }
    }
    assert!(met.iter().all(|&n| n > 100), "{met:?}");
}

#[test]
fn the_largest_file_agrees() {
    let mut r = Random(12);
    let image = any_image(&mut r, 131_072 * PAGE_BYTES);
    assert_eq!(
        both(&mut r, &image, 0x1000_0000, 2 * image.len()),
        Ok(131_072)
    );
    assert_eq!(both(&mut r, &image, 0x1000_0100, 2 * image.len()), Err(52));
    assert_eq!(
        check(usize::MAX - 255, 0x1000_0000, usize::MAX).map_err(|x| x.number()),
        Err(52)
    );
}

#[test]
fn one_block_at_a_time_is_the_same_file() {
    let mut r = Random(13);
    let image = any_image(&mut r, 40 * PAGE_BYTES);
    let mut file = vec![0; 2 * image.len()];
    assert_eq!(make(&image, ARM_S, 0x1001_0000, &mut file), Ok(40));
    let (pages, _) = image.as_chunks::<PAGE_BYTES>();
    for ((number, page), made) in (0..).zip(pages).zip(file.chunks_exact(BLOCK_BYTES)) {
        let mut block = [0xA5; BLOCK_BYTES];
        let fields = Fields {
            address: 0x1001_0000 + 256 * number,
            number,
            total: 40,
            family: ARM_S,
        };
        write_block(fields, page, &mut block);
        assert_eq!(block, made);
    }
}

/// Shuffled, with every block twice, into both receivers: the transfer is done, and the image stands in the flash.
#[test]
fn a_made_file_is_taken() {
    let mut r = Random(14);
    let settings = arm_only();
    for _ in 0..200 {
        let pages = 1 + r.below(100) as usize;
        let from = r.below(128 - pages as u64 + 1) as usize * PAGE_BYTES;
        let image = any_image(&mut r, pages * PAGE_BYTES);
        let mut file = vec![0; 2 * image.len()];
        make(&image, ARM_S, 0x1000_0000 + from as u32, &mut file).unwrap();
        let mut blocks: Vec<&[u8]> = file
            .chunks(BLOCK_BYTES)
            .chain(file.chunks(BLOCK_BYTES))
            .collect();
        r.shuffle(&mut blocks);
        let (mut ours, mut theirs) = (Buffers::filled(32_768, 7), Buffers::filled(32_768, 7));
        let (mut t, mut u) = (proved::Transfer::new(), Transfer::Idle);
        for block in blocks {
            proved::take(&proved_settings(&settings), &mut t, block, &mut ours.lend());
            u = theirs.plain_take(&settings, u, block).transfer;
        }
        let done = Transfer::Done {
            family: ARM_S,
            total: pages as u32,
            kind: Kind::Flash,
        };
        assert_eq!((t, u), (proved_transfer(done), done));
        assert_eq!(ours.flash[from..from + image.len()], image);
        assert!(ours == theirs);
    }
}

/// A file with a region for each sector, cut and sent again over what the flash holds by then: both receivers answer 17 to the blocks of the
/// sectors that were whole, and the others are stored anew. Then once more, over the finished flash: 17 to all but the last.
#[test]
fn a_file_with_regions_goes_on_after_a_cut() {
    let mut r = Random(16);
    let settings = arm_only();
    let mut kept = 0;
    for _ in 0..300 {
        let pages = 2 + r.below(90) as usize;
        let from = r.below(128 - pages as u64 + 1) as usize;
        let image = any_image(&mut r, pages * PAGE_BYTES);
        let mut file = vec![0; 2 * image.len()];
        let start = 0x1000_0000 + (from * PAGE_BYTES) as u32;
        make_regions(&image, ARM_S, start, &mut file).unwrap();
        let blocks: Vec<&[u8]> = file.chunks(BLOCK_BYTES).collect();
        let cut = r.below(pages as u64) as usize;
        let (mut ours, mut theirs) = (Buffers::filled(32_768, 7), Buffers::filled(32_768, 7));
        // The pages that the first sending brought; the last sector of them may be half done.
        for (part, stood) in [(cut, 0), (pages, cut), (pages, pages)] {
            let (mut t, mut u) = (proved::Transfer::new(), Transfer::Idle);
            for (k, block) in blocks[..part].iter().enumerate() {
                let lent = &mut ours.lend();
                let told = proved::take(&proved_settings(&settings), &mut t, block, lent);
                let plain = theirs.plain_take(&settings, u, block);
                u = plain.transfer;
                let sector_end = ((from + k) / 16 + 1) * 16;
                let whole = sector_end.min(from + pages) <= from + stood;
                let want = match (k + 1 == pages, whole) {
                    (true, _) => 15,
                    (false, true) => 17,
                    (false, false) => 14,
                };
                assert_eq!((told.answer.number(), plain.answer), (want, want));
                kept += usize::from(want == 17);
            }
        }
        let at = from * PAGE_BYTES;
        assert_eq!(ours.flash[at..at + image.len()], image);
        assert!(ours == theirs);
    }
    assert!(kept > 10_000, "{kept}");
}

#[test]
fn digests_agree() {
    let mut r = Random(15);
    let message = any_image(&mut r, 1_048_576);
    let edges = [
        0, 1, 55, 56, 57, 63, 64, 65, 119, 120, 121, 127, 128, 4096, 1_048_576,
    ];
    for len in (0..300).chain(edges) {
        assert_eq!(
            tools::md5(&message[..len]),
            reference::md5::md5(&message[..len]),
            "{len} bytes"
        );
    }
    for _ in 0..2_000 {
        let from = r.below(60_000) as usize;
        let len = r.below(9_000) as usize;
        let part = &message[from..from + len];
        assert_eq!(
            tools::md5(part),
            reference::md5::md5(part),
            "{len} bytes from {from}"
        );
    }
}
