//! MD5 as RFC 1321 has it, of bytes that lie in one piece.

/// The bytes of one step of the digest.
const CHUNK: usize = 64;
/// The bytes at the end of the last chunk that hold the message's length.
const LENGTH: usize = 8;

/// RFC 1321's T: entry i is the whole part of 2^32 times |sin(i + 1)|.
const SINES: [u32; 64] = [
    0xd76a_a478,
    0xe8c7_b756,
    0x2420_70db,
    0xc1bd_ceee,
    0xf57c_0faf,
    0x4787_c62a,
    0xa830_4613,
    0xfd46_9501,
    0x6980_98d8,
    0x8b44_f7af,
    0xffff_5bb1,
    0x895c_d7be,
    0x6b90_1122,
    0xfd98_7193,
    0xa679_438e,
    0x49b4_0821,
    0xf61e_2562,
    0xc040_b340,
    0x265e_5a51,
    0xe9b6_c7aa,
    0xd62f_105d,
    0x0244_1453,
    0xd8a1_e681,
    0xe7d3_fbc8,
    0x21e1_cde6,
    0xc337_07d6,
    0xf4d5_0d87,
    0x455a_14ed,
    0xa9e3_e905,
    0xfcef_a3f8,
    0x676f_02d9,
    0x8d2a_4c8a,
    0xfffa_3942,
    0x8771_f681,
    0x6d9d_6122,
    0xfde5_380c,
    0xa4be_ea44,
    0x4bde_cfa9,
    0xf6bb_4b60,
    0xbebf_bc70,
    0x289b_7ec6,
    0xeaa1_27fa,
    0xd4ef_3085,
    0x0488_1d05,
    0xd9d4_d039,
    0xe6db_99e5,
    0x1fa2_7cf8,
    0xc4ac_5665,
    0xf429_2244,
    0x432a_ff97,
    0xab94_23a7,
    0xfc93_a039,
    0x655b_59c3,
    0x8f0c_cc92,
    0xffef_f47d,
    0x8584_5dd1,
    0x6fa8_7e4f,
    0xfe2c_e6e0,
    0xa301_4314,
    0x4e08_11a1,
    0xf753_7e82,
    0xbd3a_f235,
    0x2ad7_d2bb,
    0xeb86_d391,
];

/// How far each of the four rounds turns, in steps that repeat by four.
const TURNS: [[u32; 4]; 4] = [
    [7, 12, 17, 22],
    [5, 9, 14, 20],
    [4, 11, 16, 23],
    [6, 10, 15, 21],
];

/// The digest of the whole of `data`.
pub fn md5(data: &[u8]) -> [u8; 16] {
    let mut state = [0x6745_2301, 0xefcd_ab89, 0x98ba_dcfe, 0x1032_5476];
    let (chunks, rest) = data.as_chunks::<CHUNK>();
    for chunk in chunks {
        step(&mut state, chunk);
    }
    // The rest, a single set bit, zeros, and the length in bits: one more
    // chunk, or two where the length finds no room in the first.
    let mut tail = [0; 2 * CHUNK];
    tail[..rest.len()].copy_from_slice(rest);
    tail[rest.len()] = 0x80;
    let end = if rest.len() < CHUNK - LENGTH {
        CHUNK
    } else {
        2 * CHUNK
    };
    // Of the length only the low 64 bits are used.
    let bits = (data.len() as u64).wrapping_mul(8);
    tail[end - LENGTH..end].copy_from_slice(&bits.to_le_bytes());
    for chunk in tail[..end].as_chunks::<CHUNK>().0 {
        step(&mut state, chunk);
    }
    let mut digest = [0; 16];
    for (bytes, word) in digest.as_chunks_mut::<4>().0.iter_mut().zip(state) {
        *bytes = word.to_le_bytes();
    }
    digest
}

/// The four rounds over one chunk.
fn step(state: &mut [u32; 4], chunk: &[u8; CHUNK]) {
    let mut words = [0; 16];
    for (word, bytes) in words.iter_mut().zip(chunk.as_chunks::<4>().0) {
        *word = u32::from_le_bytes(*bytes);
    }
    let [mut a, mut b, mut c, mut d] = *state;
    for (i, sine) in SINES.into_iter().enumerate() {
        let round = i / 16;
        let (mixed, k) = match round {
            0 => ((b & c) | (!b & d), i),
            1 => ((b & d) | (c & !d), 5 * i + 1),
            2 => (b ^ c ^ d, 3 * i + 5),
            _ => (c ^ (b | !d), 7 * i),
        };
        let sum = a
            .wrapping_add(mixed)
            .wrapping_add(words[k % 16])
            .wrapping_add(sine);
        let next = b.wrapping_add(sum.rotate_left(TURNS[round][i % 4]));
        (a, b, c, d) = (d, next, b, c);
    }
    for (word, more) in state.iter_mut().zip([a, b, c, d]) {
        *word = word.wrapping_add(more);
    }
}

#[cfg(test)]
mod tests {
    use super::*;

    fn hex(data: &[u8]) -> String {
        md5(data).iter().map(|byte| format!("{byte:02x}")).collect()
    }

    #[test]
    fn vectors_of_rfc_1321() {
        for (text, digest) in [
            ("", "d41d8cd98f00b204e9800998ecf8427e"),
            ("a", "0cc175b9c0f1b6a831c399e269772661"),
            ("abc", "900150983cd24fb0d6963f7d28e17f72"),
            ("message digest", "f96b697d7cb7938d525a2f31aaf161d0"),
            (
                "abcdefghijklmnopqrstuvwxyz",
                "c3fcd3d76192e4007dfb496cca67e13b",
            ),
            (
                "ABCDEFGHIJKLMNOPQRSTUVWXYZabcdefghijklmnopqrstuvwxyz0123456789",
                "d174ab98d277d9f5a5611c2c9f419d9f",
            ),
            (
                "12345678901234567890123456789012345678901234567890123456789012345678901234567890",
                "57edf4a22be3c955ac49da2e2107b67a",
            ),
        ] {
            assert_eq!(hex(text.as_bytes()), digest, "{text}");
        }
    }

    #[test]
    fn the_table_is_of_sines() {
        for (i, sine) in SINES.into_iter().enumerate() {
            let exact = ((i + 1) as f64).sin().abs() * 4_294_967_296.0;
            assert_eq!(sine, exact as u32, "{i}");
        }
    }

    /// Digests by another implementation, around the lengths at which the tail
    /// changes its form; byte i is (7 i + 3) mod 251.
    #[test]
    fn lengths_around_a_chunk() {
        for (len, digest) in [
            (0, "d41d8cd98f00b204e9800998ecf8427e"),
            (1, "8666683506aacd900bbd5a74ac4edf68"),
            (54, "87383386432d970a20307b3cd7cf620c"),
            (55, "030157be00035d098644cfc70e5deaea"),
            (56, "8e758df1ec8681fc06daa64253668f13"),
            (57, "7cc4dbe44c422ac3e98466e4ff92bb95"),
            (62, "ca8774403269fc1064b4b5f40a7b3496"),
            (63, "4a805576b511a836fefee199fb797ae5"),
            (64, "7a0cbe2eab91195c56eae7f83588d243"),
            (65, "940b4e909b09d4828b0eebe642613192"),
            (66, "2b8ab982aac1a1fd71728f34c7330b79"),
            (118, "52af54913684dd81b9dad9f2ed68fdf9"),
            (119, "c78b1987e67f5f382adb7de5fed3e55e"),
            (120, "4bebaf2293f8b2e434f1a4f024eea593"),
            (121, "3c68a71adfe5801bdfdfe28e0cf56421"),
            (127, "72a9cc53dbae65d0146d626d46f6fb74"),
            (128, "087b965e51e4b1200ebfd13e9761caa5"),
            (129, "ed0fec46be329a097e88d7e3a1643f35"),
            (4096, "7bfb657e3295823bb1fc0e6de0dce0f4"),
            (8192, "9c0a5dbce16c576f4a3a3e61d4b5ed3b"),
        ] {
            let data: Vec<u8> = (0..len).map(|i| ((7 * i + 3) % 251) as u8).collect();
            assert_eq!(hex(&data), digest, "{len}");
        }
    }
}
