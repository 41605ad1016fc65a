//! What the programs are called with.

/// The program's leading arguments, numbers all, or their defaults.
pub fn arguments<const N: usize>(defaults: [u64; N]) -> [u64; N] {
    numbers(std::env::args().skip(1), defaults)
}

/// The first of the arguments given, numbers all, or their defaults.
pub fn numbers<const N: usize>(
    mut given: impl Iterator<Item = String>,
    defaults: [u64; N],
) -> [u64; N] {
    defaults.map(|default| match given.next() {
        None => default,
        Some(text) => text.parse().expect("arguments are numbers"),
    })
}
