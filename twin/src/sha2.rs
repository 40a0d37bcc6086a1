//! SHA-512 of FIPS 180-4, and SHA-256 for the digests in the outside vectors.

/// The first 64 bits of the fractions of the square roots of the first 8 primes.
/// SHA-256 has their high halves.
const START: [u64; 8] = [
    0x6a09_e667_f3bc_c908, 0xbb67_ae85_84ca_a73b, 0x3c6e_f372_fe94_f82b, 0xa54f_f53a_5f1d_36f1,
    0x510e_527f_ade6_82d1, 0x9b05_688c_2b3e_6c1f, 0x1f83_d9ab_fb41_bd6b, 0x5be0_cd19_137e_2179,
];

/// The first 64 bits of the fractions of the cube roots of the first 80 primes.
/// SHA-256 has the high halves of the first 64.
const CONSTANTS: [u64; 80] = [
    0x428a_2f98_d728_ae22, 0x7137_4491_23ef_65cd, 0xb5c0_fbcf_ec4d_3b2f, 0xe9b5_dba5_8189_dbbc,
    0x3956_c25b_f348_b538, 0x59f1_11f1_b605_d019, 0x923f_82a4_af19_4f9b, 0xab1c_5ed5_da6d_8118,
    0xd807_aa98_a303_0242, 0x1283_5b01_4570_6fbe, 0x2431_85be_4ee4_b28c, 0x550c_7dc3_d5ff_b4e2,
    0x72be_5d74_f27b_896f, 0x80de_b1fe_3b16_96b1, 0x9bdc_06a7_25c7_1235, 0xc19b_f174_cf69_2694,
    0xe49b_69c1_9ef1_4ad2, 0xefbe_4786_384f_25e3, 0x0fc1_9dc6_8b8c_d5b5, 0x240c_a1cc_77ac_9c65,
    0x2de9_2c6f_592b_0275, 0x4a74_84aa_6ea6_e483, 0x5cb0_a9dc_bd41_fbd4, 0x76f9_88da_8311_53b5,
    0x983e_5152_ee66_dfab, 0xa831_c66d_2db4_3210, 0xb003_27c8_98fb_213f, 0xbf59_7fc7_beef_0ee4,
    0xc6e0_0bf3_3da8_8fc2, 0xd5a7_9147_930a_a725, 0x06ca_6351_e003_826f, 0x1429_2967_0a0e_6e70,
    0x27b7_0a85_46d2_2ffc, 0x2e1b_2138_5c26_c926, 0x4d2c_6dfc_5ac4_2aed, 0x5338_0d13_9d95_b3df,
    0x650a_7354_8baf_63de, 0x766a_0abb_3c77_b2a8, 0x81c2_c92e_47ed_aee6, 0x9272_2c85_1482_353b,
    0xa2bf_e8a1_4cf1_0364, 0xa81a_664b_bc42_3001, 0xc24b_8b70_d0f8_9791, 0xc76c_51a3_0654_be30,
    0xd192_e819_d6ef_5218, 0xd699_0624_5565_a910, 0xf40e_3585_5771_202a, 0x106a_a070_32bb_d1b8,
    0x19a4_c116_b8d2_d0c8, 0x1e37_6c08_5141_ab53, 0x2748_774c_df8e_eb99, 0x34b0_bcb5_e19b_48a8,
    0x391c_0cb3_c5c9_5a63, 0x4ed8_aa4a_e341_8acb, 0x5b9c_ca4f_7763_e373, 0x682e_6ff3_d6b2_b8a3,
    0x748f_82ee_5def_b2fc, 0x78a5_636f_4317_2f60, 0x84c8_7814_a1f0_ab72, 0x8cc7_0208_1a64_39ec,
    0x90be_fffa_2363_1e28, 0xa450_6ceb_de82_bde9, 0xbef9_a3f7_b2c6_7915, 0xc671_78f2_e372_532b,
    0xca27_3ece_ea26_619c, 0xd186_b8c7_21c0_c207, 0xeada_7dd6_cde0_eb1e, 0xf57d_4f7f_ee6e_d178,
    0x06f0_67aa_7217_6fba, 0x0a63_7dc5_a2c8_98a6, 0x113f_9804_bef9_0dae, 0x1b71_0b35_131c_471b,
    0x28db_77f5_2304_7d84, 0x32ca_ab7b_40c7_2493, 0x3c9e_be0a_15c9_bebc, 0x431d_67c4_9c10_0d4c,
    0x4cc5_d4be_cb3e_42b6, 0x597f_299c_fc65_7e2a, 0x5fcb_6fab_3ad6_faec, 0x6c44_198c_4a47_5817,
];

/// The two digests differ in the word, in the number of rounds and in the turns:
/// those of the words a and e in a round, and those of the two older words in the
/// schedule, where the third is a shift.
macro_rules! digest {
    ($name:ident, $word:ident, $rounds:literal, $a:expr, $e:expr, $near:expr, $far:expr) => {
        pub fn $name(message: &[u8]) -> [u8; 8 * size_of::<$word>()] {
            const WORD: usize = size_of::<$word>();
            const BLOCK: usize = 16 * WORD;

            /// The high bits of one of the constants above.
            fn high(constant: u64) -> $word {
                (constant >> (u64::BITS - $word::BITS)) as $word
            }

            fn turned(x: $word, turns: [u32; 3]) -> $word {
                turns.into_iter().fold(0, |sum, turn| sum ^ x.rotate_right(turn))
            }

            fn mixed(x: $word, turns: [u32; 3]) -> $word {
                x.rotate_right(turns[0]) ^ x.rotate_right(turns[1]) ^ (x >> turns[2])
            }

            fn sum(words: [$word; 4]) -> $word {
                words.into_iter().fold(0, $word::wrapping_add)
            }

            fn schedule(block: &[u8]) -> [$word; $rounds] {
                let mut words = [0; $rounds];
                for (word, bytes) in words.iter_mut().zip(block.chunks_exact(WORD)) {
                    *word = $word::from_be_bytes(bytes.try_into().expect("one word"));
                }
                for i in 16..$rounds {
                    let (near, far) = (mixed(words[i - 2], $near), mixed(words[i - 15], $far));
                    words[i] = sum([near, words[i - 7], far, words[i - 16]]);
                }
                words
            }

            fn compress(state: &mut [$word; 8], block: &[u8]) {
                let [mut a, mut b, mut c, mut d, mut e, mut f, mut g, mut h] = *state;
                for (word, constant) in schedule(block).into_iter().zip(CONSTANTS) {
                    let choice = (e & f) ^ (!e & g);
                    let first = sum([turned(e, $e), choice, high(constant), word]).wrapping_add(h);
                    let majority = (a & b) ^ (a & c) ^ (b & c);
                    let second = turned(a, $a).wrapping_add(majority);
                    (h, g, f, e) = (g, f, e, d.wrapping_add(first));
                    (d, c, b, a) = (c, b, a, first.wrapping_add(second));
                }
                for (word, change) in state.iter_mut().zip([a, b, c, d, e, f, g, h]) {
                    *word = word.wrapping_add(change);
                }
            }

            let mut state = START.map(high);
            let blocks = message.chunks_exact(BLOCK);
            let last = ending(blocks.remainder(), message.len(), BLOCK);
            for block in blocks.chain(last.chunks_exact(BLOCK)) {
                compress(&mut state, block);
            }
            let mut digest = [0; 8 * WORD];
            for (bytes, word) in digest.chunks_exact_mut(WORD).zip(state) {
                bytes.copy_from_slice(&word.to_be_bytes());
            }
            digest
        }
    };
}

digest!(sha512, u64, 80, [28, 34, 39], [14, 18, 41], [19, 61, 6], [1, 8, 7]);
digest!(sha256, u32, 64, [2, 13, 22], [6, 11, 25], [17, 19, 10], [7, 18, 3]);

/// What follows the last whole block: the rest of the message, a one bit, zeros,
/// and the message's length in bits, in an eighth of a block.
fn ending(rest: &[u8], length: usize, block: usize) -> Vec<u8> {
    let mut ending = rest.to_vec();
    ending.push(0x80);
    let bits = (8 * length as u128).to_be_bytes();
    let field = &bits[bits.len() - block / 8..];
    let whole = (ending.len() + field.len()).div_ceil(block) * block;
    ending.resize(whole - field.len(), 0);
    ending.extend_from_slice(field);
    ending
}

#[cfg(test)]
mod tests {
    use super::{sha256, sha512};
    use crate::hash::{hex, tests::LONG};

    #[test]
    fn vectors_of_fips_180_4() {
        let a_million = vec![b'a'; 1_000_000];
        let cases: [(&[u8], &str); 4] =
            [(b"", EMPTY), (b"abc", ABC), (LONG, OF_LONG), (&a_million, OF_A_MILLION)];
        for (message, digest) in cases {
            assert_eq!(hex(&sha512(message)), digest, "{} bytes", message.len());
        }
    }

    #[test]
    fn short_digest() {
        assert_eq!(hex(&sha256(b"abc")), SHORT_OF_ABC);
        assert_eq!(hex(&sha256(LONG)), SHORT_OF_LONG);
    }

    const EMPTY: &str = "cf83e1357eefb8bdf1542850d66d8007d620e4050b5715dc83f4a921d36ce9ce\
        47d0d13c5d85f2b0ff8318d2877eec2f63b931bd47417a81a538327af927da3e";
    const ABC: &str = "ddaf35a193617abacc417349ae20413112e6fa4e89a97ea20a9eeee64b55d39a\
        2192992a274fc1a836ba3c23a3feebbd454d4423643ce80e2a9ac94fa54ca49f";
    const OF_LONG: &str = "8e959b75dae313da8cf4f72814fc143f8f7779c6eb9f7fa17299aeadb6889018\
        501d289e4900f7e4331b99dec4b5433ac7d329eeb6dd26545e96e55b874be909";
    const OF_A_MILLION: &str = "e718483d0ce769644e2e42c7bc15b4638e1f98b13b2044285632a803afa973eb\
        de0ff244877ea60a4cb0432ce577c31beb009c5c2c49aa2e4eadb217ad8cc09b";
    const SHORT_OF_ABC: &str = "ba7816bf8f01cfea414140de5dae2223b00361a396177a9cb410ff61f20015ad";
    const SHORT_OF_LONG: &str = "cf5b16a778af8380036ce59e7b0492370b249b11e8f07a51afac45037afee9d1";
}
