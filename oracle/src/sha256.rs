//! SHA-256 (FIPS 180-4), to name in a vectors file the very text that gave its answers.

/// The digest of `bytes`, in lowercase hex digits.
pub fn hex_digest(bytes: &[u8]) -> String {
    let constants = fractions::<64>(cube_root);
    let mut state = fractions::<8>(square_root);
    for block in padded(bytes).chunks(64) {
        mix(&mut state, block, &constants);
    }
    state.iter().map(|word| format!("{:08x}", word)).collect()
}

/// The message, a one bit, zeros up to a whole block, and the message's length in bits.
fn padded(bytes: &[u8]) -> Vec<u8> {
    let mut message = bytes.to_vec();
    message.push(0x80);
    while message.len() % 64 != 56 {
        message.push(0);
    }
    message.extend_from_slice(&(bytes.len() as u64 * 8).to_be_bytes());
    message
}

fn mix(state: &mut [u32; 8], block: &[u8], constants: &[u32; 64]) {
    let [mut a, mut b, mut c, mut d, mut e, mut f, mut g, mut h] = *state;
    for (word, constant) in schedule(block).iter().zip(constants) {
        let first = h
            .wrapping_add(e.rotate_right(6) ^ e.rotate_right(11) ^ e.rotate_right(25))
            .wrapping_add((e & f) ^ (!e & g))
            .wrapping_add(*constant)
            .wrapping_add(*word);
        let second = (a.rotate_right(2) ^ a.rotate_right(13) ^ a.rotate_right(22)).wrapping_add((a & b) ^ (a & c) ^ (b & c));
        (h, g, f, e) = (g, f, e, d.wrapping_add(first));
        (d, c, b, a) = (c, b, a, first.wrapping_add(second));
    }
    for (old, new) in state.iter_mut().zip([a, b, c, d, e, f, g, h]) {
        *old = old.wrapping_add(new);
    }
}

/// The block's sixteen words and the forty-eight made of them.
fn schedule(block: &[u8]) -> [u32; 64] {
    let mut words = [0; 64];
    for (word, bytes) in words.iter_mut().zip(block.chunks(4)) {
        *word = u32::from_be_bytes([bytes[0], bytes[1], bytes[2], bytes[3]]);
    }
    for t in 16..64 {
        let (early, late) = (words[t - 15], words[t - 2]);
        let low = early.rotate_right(7) ^ early.rotate_right(18) ^ (early >> 3);
        let high = late.rotate_right(17) ^ late.rotate_right(19) ^ (late >> 10);
        words[t] = words[t - 16].wrapping_add(low).wrapping_add(words[t - 7]).wrapping_add(high);
    }
    words
}

/// The standard's constants by their rule: 32 bits of the fractions of roots of the first `N` primes.
fn fractions<const N: usize>(root: fn(u128) -> u128) -> [u32; N] {
    let mut found = [0; N];
    let primes = (2u128..).filter(|n| (2..*n).all(|d| n % d != 0));
    for (constant, prime) in found.iter_mut().zip(primes) {
        *constant = root(prime) as u32;
    }
    found
}

/// The largest whole r with r * r at most n * 2^64: the square root of n, 32 binary places on.
fn square_root(n: u128) -> u128 {
    largest(|r| r * r <= n << 64)
}

/// The largest whole r with r * r * r at most n * 2^96: the cube root of n, 32 binary places on.
fn cube_root(n: u128) -> u128 {
    largest(|r| r * r * r <= n << 96)
}

/// The largest number below 2^37 that holds, where all below one that holds do too.
fn largest(holds: impl Fn(u128) -> bool) -> u128 {
    (0..37).rev().fold(0, |found, bit| if holds(found | 1 << bit) { found | 1 << bit } else { found })
}

#[cfg(test)]
mod tests {
    use super::*;

    #[test]
    fn nothing() {
        assert_eq!(hex_digest(b""), "e3b0c44298fc1c149afbf4c8996fb92427ae41e4649b934ca495991b7852b855");
    }

    #[test]
    fn abc() {
        assert_eq!(hex_digest(b"abc"), "ba7816bf8f01cfea414140de5dae2223b00361a396177a9cb410ff61f20015ad");
    }

    #[test]
    fn more_than_a_block() {
        let message = b"abcdbcdecdefdefgefghfghighijhijkijkljklmklmnlmnomnopnopq";
        assert_eq!(hex_digest(message), "248d6a61d20638b8e5c026930c3e6039a33ce45964ff2167f6ecedd419db06c1");
    }

    #[test]
    fn a_million_letters() {
        let message = vec![b'a'; 1_000_000];
        assert_eq!(hex_digest(&message), "cdc76e5c9914fb9281a1c7e284d73e67f1809a48a497200e046d39ccc7112cd0");
    }
}
