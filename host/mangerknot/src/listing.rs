//! The bench listing: a text in, a text out.

/// Room for every answer there is, in bytes.
pub const LISTING_BYTES: usize = 92_160;
/// The most regions of a listing, which are fewer than a call's.
pub const MAX_REGIONS: usize = 64;
/// The most particles of a listing, which are fewer than a call's.
pub const MAX_PARTICLES: usize = 256;

/// Writes the answer to a whole listing to the front of `out`, and answers that part of it; none, with nothing written, where `out` is
/// too short, which no `out` of [`LISTING_BYTES`] is. It takes some 161,300 bytes of the stack: have 192 KiB left.
///
/// A listing is lines of fields with single tabs between them, each ended by a line feed; floats are 8 upper case hex digits of their
/// bits, other numbers decimal, below 2^64, without leading zeros. One line `w` cell width, dt, gravity's x and y; then for each region `r`
/// id, start, count; then for each particle `p`, its floats from position to psi in the order of [`crate::Particle`]'s fields, and whether
/// it failed. Its nodes are cleared and the particles scattered; each node whose mass is not 0 has a line `n` x, y, mass, momentum,
/// velocity, and the last line is `ok` and how many these are. A listing that is refused has the one line `no`, number, index.
///
/// ```
/// use mangerknot::listing::{bench, LISTING_BYTES};
/// let mut out = [0; LISTING_BYTES];
/// assert_eq!(bench(b"w\t3F800000\t3F800000\t00000000\t00000000\n", &mut out), Some(&b"ok\t0\n"[..]));
/// assert_eq!(bench(b"not a listing\n", &mut out), Some(&b"no\t11\t0\n"[..]));
/// assert_eq!(bench(b"not a listing\n", &mut out[..4]), None);
/// ```
pub fn bench<'a>(text: &[u8], out: &'a mut [u8]) -> Option<&'a [u8]> {
    let length = archive!(mk_bench: [text] [mut out]);
    Some(&out[..length]).filter(|answer| !answer.is_empty())
}
