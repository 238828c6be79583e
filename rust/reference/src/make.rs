//! UF2 blocks made from a raw image (02, L1).

use crate::md5::md5;
use crate::{
    ARRIVAL_LEN, DATA_AT, FLAG_FAMILY, FLAG_MD5, MAGIC_FIRST, MAGIC_LAST, MAGIC_SECOND,
    MAX_FLASH_LEN, PAYLOAD_LEN, REGION_AT, SECTOR_LEN, WINDOW,
};

/// The image is empty or no whole number of pages.
pub const BAD_PAGES: u32 = 50;
/// The start is outside the window or no multiple of 256.
pub const BAD_START: u32 = 51;
/// The image runs past the window.
pub const PAST_WINDOW: u32 = 52;
/// The output has under 512 bytes a page.
pub const SHORT_OUTPUT: u32 = 53;

/// Writes the image's blocks in number order and gives their number. A refusal
/// writes nothing, and what lies past the last block stays.
pub fn make(image: &[u8], family: u32, start: u32, output: &mut [u8]) -> Result<usize, u32> {
    let blocks = room(image, start, output)?;
    write_all(image, family, start, blocks);
    Ok(blocks.len())
}

/// The same, but every block has flag 0x4000 too and names its sector as a
/// region (02, L9), with the digest of what the file leaves there.
pub fn make_regions(
    image: &[u8],
    family: u32,
    start: u32,
    output: &mut [u8],
) -> Result<usize, u32> {
    let blocks = room(image, start, output)?;
    write_all(image, family, start, blocks);
    for (number, block) in (0..).zip(blocks.iter_mut()) {
        let address = start + number * PAYLOAD_LEN as u32;
        let sector = address / SECTOR * SECTOR;
        let digest = md5(&left(image, start, sector));
        let flags = FLAG_FAMILY | FLAG_MD5;
        block[8..12].copy_from_slice(&flags.to_le_bytes());
        let region = &mut block[DATA_AT][REGION_AT];
        region[..4].copy_from_slice(&sector.to_le_bytes());
        region[4..8].copy_from_slice(&SECTOR.to_le_bytes());
        region[8..].copy_from_slice(&digest);
    }
    Ok(blocks.len())
}

const SECTOR: u32 = SECTOR_LEN as u32;

/// What the file leaves in a sector that it touches: 0xFF where the image has
/// no byte.
fn left(image: &[u8], start: u32, sector: u32) -> Vec<u8> {
    let byte_at = |address: u32| {
        let at = address.checked_sub(start)?;
        image.get(at as usize).copied()
    };
    let addresses = sector..sector + SECTOR;
    addresses.map(|at| byte_at(at).unwrap_or(0xFF)).collect()
}

/// The part of the output that the image's blocks go to, or a refusal, in L1's
/// order.
fn room<'a>(
    image: &[u8],
    start: u32,
    output: &'a mut [u8],
) -> Result<&'a mut [[u8; ARRIVAL_LEN]], u32> {
    let (pages, ragged) = image.as_chunks::<PAYLOAD_LEN>();
    if pages.is_empty() || !ragged.is_empty() {
        return Err(BAD_PAGES);
    }
    // The window is as long as the largest flash, and begins at a multiple of
    // 256, so that the offset in it is one exactly if the start is.
    let offset = start.checked_sub(WINDOW).ok_or(BAD_START)? as usize;
    if offset >= MAX_FLASH_LEN || !offset.is_multiple_of(PAYLOAD_LEN) {
        return Err(BAD_START);
    }
    if image.len() > MAX_FLASH_LEN - offset {
        return Err(PAST_WINDOW);
    }
    let blocks = output.as_chunks_mut::<ARRIVAL_LEN>().0;
    blocks.get_mut(..pages.len()).ok_or(SHORT_OUTPUT)
}

/// Writes as many blocks as the image has pages.
fn write_all(image: &[u8], family: u32, start: u32, blocks: &mut [[u8; ARRIVAL_LEN]]) {
    let pages = image.as_chunks::<PAYLOAD_LEN>().0;
    // At most 131,072 pages are left, so that the fields hold all numbers.
    let total = pages.len() as u32;
    for (number, (page, block)) in (0..total).zip(pages.iter().zip(blocks)) {
        let address = start + number * PAYLOAD_LEN as u32;
        write(page, [address, number, total, family], block);
    }
}

fn write(page: &[u8; PAYLOAD_LEN], fields: [u32; 4], block: &mut [u8; ARRIVAL_LEN]) {
    let [address, number, total, family] = fields;
    let size = PAYLOAD_LEN as u32;
    let header = [
        MAGIC_FIRST,
        MAGIC_SECOND,
        FLAG_FAMILY,
        address,
        size,
        number,
        total,
        family,
    ];
    let (head, data) = block.split_at_mut(32);
    for (bytes, field) in head.as_chunks_mut::<4>().0.iter_mut().zip(header) {
        *bytes = field.to_le_bytes();
    }
    data.fill(0);
    data[..PAYLOAD_LEN].copy_from_slice(page);
    data[476..].copy_from_slice(&MAGIC_LAST.to_le_bytes());
}

#[cfg(test)]
mod tests {
    use super::*;
    use crate::ARM_S;

    /// Pages whose bytes tell the page and the place in it.
    fn image(pages: usize) -> Vec<u8> {
        (0..pages * 256).map(|i| (i ^ (i >> 8)) as u8).collect()
    }

    fn made(image: &[u8], start: u32) -> Vec<u8> {
        let mut output = vec![0xA7; image.len() * 2];
        let pages = image.len() / 256;
        assert_eq!(make(image, ARM_S, start, &mut output), Ok(pages));
        output
    }

    /// A refusal, which has to leave the output as it was; with regions too.
    fn refused(image: &[u8], start: u32, output_len: usize) -> u32 {
        let mut output = vec![0xA7; output_len];
        let refusal = make(image, ARM_S, start, &mut output).unwrap_err();
        let again = make_regions(image, ARM_S, start, &mut output);
        assert_eq!(again, Err(refusal));
        assert!(output.iter().all(|&byte| byte == 0xA7));
        refusal
    }

    fn made_regions(image: &[u8], start: u32) -> Vec<u8> {
        let mut output = vec![0xA7; image.len() * 2];
        let pages = image.len() / 256;
        assert_eq!(make_regions(image, ARM_S, start, &mut output), Ok(pages));
        output
    }

    /// Beside the flag and the last 24 data bytes, the blocks are those of a
    /// file without regions.
    #[test]
    fn regions_are_all_that_differs() {
        for (pages, start) in [(1, 0x1000_0000), (40, 0x1000_0300), (16, 0x11FF_F000)] {
            let image = image(pages);
            let mut with = made_regions(&image, start);
            for block in with.chunks_mut(512) {
                assert_eq!(block[8..12], [0x00, 0x60, 0, 0]);
                block[9] = 0x20;
                block[484..508].fill(0);
            }
            assert_eq!(with, made(&image, start));
        }
    }

    /// One page amid a sector: 0xFF before it and after it.
    #[test]
    fn a_region_byte_for_byte() {
        let page = image(1);
        let output = made_regions(&page, 0x1000_3500);
        assert_eq!(output[484..488], [0x00, 0x30, 0x00, 0x10]);
        assert_eq!(output[488..492], [0x00, 0x10, 0x00, 0x00]);
        let mut sector = [0xFF; 4096];
        sector[0x500..0x600].copy_from_slice(&page);
        assert_eq!(output[492..508], md5(&sector));
    }

    /// Twenty pages from the last of a sector on: one page of the first sector,
    /// all of the second and three pages of the third.
    #[test]
    fn regions_by_sector() {
        let image = image(20);
        let output = made_regions(&image, 0x1000_0F00);
        let mut flash = vec![0xFF; 3 * 4096];
        flash[0xF00..0xF00 + 20 * 256].copy_from_slice(&image);
        for (number, block) in output.chunks(512).enumerate() {
            let page = 15 + number;
            let sector = page / 16;
            let start = 0x1000_0000 + 4096 * sector as u32;
            assert_eq!(block[484..488], start.to_le_bytes());
            assert_eq!(block[488..492], 4096u32.to_le_bytes());
            assert_eq!(block[492..508], md5(&flash[4096 * sector..][..4096]));
        }
    }

    #[test]
    fn what_is_past_the_last_region_block_stays() {
        for more in [0, 1, 511, 512, 2000] {
            let mut output = vec![0xA7; 1024 + more];
            let pages = make_regions(&image(2), ARM_S, 0x1000_0000, &mut output);
            assert_eq!(pages, Ok(2));
            assert!(output[1024..].iter().all(|&byte| byte == 0xA7));
        }
    }

    #[test]
    fn one_page_byte_for_byte() {
        let page = image(1);
        let mut expected = vec![];
        expected.extend(b"UF2\n");
        expected.extend([0x57, 0x51, 0x5D, 0x9E]);
        expected.extend([0x00, 0x20, 0, 0]);
        expected.extend([0x00, 0x01, 0xAB, 0x11]);
        expected.extend([0x00, 0x01, 0, 0]);
        expected.extend([0, 0, 0, 0]);
        expected.extend([1, 0, 0, 0]);
        expected.extend([0x78, 0x56, 0x34, 0x12]);
        expected.extend(&page);
        expected.extend([0; 220]);
        expected.extend([0x30, 0x6F, 0xB1, 0x0A]);
        let mut output = [0xA7; 512];
        assert_eq!(make(&page, 0x1234_5678, 0x11AB_0100, &mut output), Ok(1));
        assert_eq!(output, *expected);
    }

    #[test]
    fn fields_in_number_order() {
        let image = image(300);
        let output = made(&image, 0x1000_0200);
        for (number, block) in output.chunks(512).enumerate() {
            let field = |at: usize| {
                u32::from_le_bytes([block[at], block[at + 1], block[at + 2], block[at + 3]])
            };
            let number = number as u32;
            assert_eq!(field(8), 0x2000);
            assert_eq!(field(12), 0x1000_0200 + 256 * number);
            assert_eq!((field(16), field(20), field(24)), (256, number, 300));
            assert_eq!(field(28), ARM_S);
            assert_eq!(block[32..288], image[256 * number as usize..][..256]);
            assert!(block[288..508].iter().all(|&byte| byte == 0));
        }
    }

    #[test]
    fn refusal_50() {
        for len in [0, 1, 255, 257, 511] {
            assert_eq!(refused(&vec![1; len], 0, 0), 50);
        }
    }

    #[test]
    fn refusal_51() {
        for start in [
            0,
            0x0FFF_FF00,
            0x1000_0001,
            0x1000_0080,
            0x1000_00FF,
            0x1200_0000,
            0x1200_0100,
            0x2000_0000,
            0xFFFF_FF00,
            u32::MAX,
        ] {
            assert_eq!(refused(&image(1), start, 0), 51);
        }
    }

    #[test]
    fn refusal_52() {
        assert_eq!(refused(&image(2), 0x11FF_FF00, 0), 52);
        made(&image(1), 0x11FF_FF00);
        made(&image(2), 0x11FF_FE00);
        let whole = vec![7; 33_554_432];
        made(&whole, 0x1000_0000);
        assert_eq!(refused(&whole, 0x1000_0100, 0), 52);
        assert_eq!(refused(&vec![7; 33_554_432 + 256], 0x1000_0000, 0), 52);
    }

    #[test]
    fn refusal_53() {
        for len in [0, 1, 512, 1023] {
            assert_eq!(refused(&image(2), 0x1000_0000, len), 53);
        }
    }

    #[test]
    fn what_is_past_the_last_block_stays() {
        for more in [0, 1, 511, 512, 2000] {
            let mut output = vec![0xA7; 1024 + more];
            assert_eq!(make(&image(2), ARM_S, 0x1000_0000, &mut output), Ok(2));
            assert!(output[1024..].iter().all(|&byte| byte == 0xA7));
            assert_eq!(output[..1024], made(&image(2), 0x1000_0000));
        }
    }
}
