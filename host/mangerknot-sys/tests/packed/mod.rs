//! Ids as vectors have them, in 16 hex digits.

pub fn hex(field: &str) -> u64 {
    u64::from_str_radix(field, 16).expect("a field of hex digits")
}

pub fn id(answer: u64) -> String {
    format!("{:016X}", answer)
}
