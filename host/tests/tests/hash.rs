//! The 64-bit FNV-1a hash.

use conformance::block::fnv1a64;
use conformance::prng::Prng;

/// Published with the algorithm, in test_fnv.c and in the draft on FNV.
const VECTORS: &[(&[u8], u64)] = &[
    (b"", 0xcbf2_9ce4_8422_2325),
    (b"a", 0xaf63_dc4c_8601_ec8c),
    (b"b", 0xaf63_df4c_8601_f1a5),
    (b"c", 0xaf63_de4c_8601_eff2),
    (b"d", 0xaf63_d94c_8601_e773),
    (b"e", 0xaf63_d84c_8601_e5c0),
    (b"f", 0xaf63_db4c_8601_ead9),
    (b"fo", 0x0898_5907_b541_d342),
    (b"foo", 0xdcb2_7518_fed9_d577),
    (b"foob", 0xdd12_0e79_0c25_12af),
    (b"fooba", 0xcac1_65af_a2fe_f40a),
    (b"foobar", 0x8594_4171_f739_67e8),
    (b"\0", 0xaf63_bd4c_8601_b7df),
    (b"a\0", 0x089b_e207_b544_f1e4),
    (b"b\0", 0x08a6_1407_b54d_9b5f),
    (b"c\0", 0x08a2_ae07_b54a_b836),
    (b"foobar\0", 0x3453_1ca7_168b_8f38),
    (b"ch", 0x08a2_5607_b54a_22ae),
    (b"cho", 0xf5fa_f019_0cf9_0df3),
    (b"chon", 0xf273_9791_0b32_21c7),
    (b"chong", 0x2c8c_2b76_062f_22e0),
    (b"chongo", 0xe150_688c_8217_b8fd),
    (b"chongo was here!\n", 0x4681_0940_eff5_f915),
];

#[test]
fn published_vectors() {
    for (bytes, hash) in VECTORS {
        assert_eq!(yuharopu::fnv1a64(bytes), *hash, "{bytes:?}");
    }
}

fn compare(bytes: &[u8]) {
    let hash = yuharopu::fnv1a64(bytes);
    assert_eq!(hash, fnv1a64(bytes), "{} bytes", bytes.len());
    if oracle::AVAILABLE {
        assert_eq!(hash, oracle::fnv1a64(bytes), "{} bytes", bytes.len());
    }
}

#[test]
fn every_length_to_a_thousand() {
    let mut prng = Prng::new(11);
    for len in 0..=1_000 {
        let bytes = prng.bytes(len);
        compare(&bytes);
        let mostly_zeros: Vec<u8> = bytes.iter().map(|byte| byte.saturating_sub(200)).collect();
        compare(&mostly_zeros);
        compare(&vec![0; len]);
        compare(&vec![0xff; len]);
    }
}

#[test]
fn every_single_byte() {
    (0..=u8::MAX).for_each(|byte| compare(&[byte]));
}

#[test]
fn large_inputs() {
    let bytes = Prng::new(12).bytes((16 << 20) + 3);
    compare(&bytes);
    compare(&bytes[..1 << 20]);
    compare(&bytes[1..]);
}

#[test]
fn two_parts_fold_to_the_whole() {
    let bytes = Prng::new(13).bytes(300);
    let whole = yuharopu::fnv1a64(&bytes);
    let start = yuharopu::fnv1a64(&[]);
    for cut in 0..=bytes.len() {
        let (first, second) = bytes.split_at(cut);
        let hash = yuharopu::fold_fnv1a64(start, first);
        assert_eq!(hash, yuharopu::fnv1a64(first), "cut at {cut}");
        assert_eq!(yuharopu::fold_fnv1a64(hash, second), whole, "cut at {cut}");
    }
}

#[test]
fn folding_starts_from_any_hash() {
    let mut prng = Prng::new(14);
    for len in 0..200 {
        let (hash, bytes) = (prng.field(), prng.bytes(len));
        let step = |hash: u64, byte: &u8| (hash ^ u64::from(*byte)).wrapping_mul(0x100_0000_01b3);
        let expected = bytes.iter().fold(hash, step);
        assert_eq!(yuharopu::fold_fnv1a64(hash, &bytes), expected);
    }
}
