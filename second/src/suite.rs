//! The parameters of the cipher suite KT_128_SHA256_P256 (001, 15.1).

/// The number of the suite in a configuration.
pub const NUMBER: u16 = 0x0001;

/// Hash.Nh, the length of a hash value in bytes.
pub const NH: usize = 32;

/// VRF.Nh, the length of a VRF output in bytes.
pub const VRF_NH: usize = 32;

/// Nc, the length of a commitment's opening in bytes.
pub const NC: usize = 16;

/// Kc, the key under which commitments are computed.
pub const KC: [u8; 16] = [
    0xd8, 0x21, 0xf8, 0x79, 0x0d, 0x97, 0x70, 0x97, 0x96, 0xb4, 0xd7, 0x90, 0x33, 0x57, 0xc3, 0xf5,
];

/// A value of the suite's hash.
pub type Hash = [u8; NH];

/// A search key of the prefix tree: what the VRF gives for a label and a version.
pub type VrfOutput = [u8; VRF_NH];
