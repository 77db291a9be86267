//! The arguments of the programs.

/// The first two whole numbers, none where they are missing or something else: a seed and a count or an index.
pub fn two_numbers() -> Option<(u64, u64)> {
    let arguments: Vec<String> = std::env::args().skip(1).collect();
    let [first, second, ..] = arguments.as_slice() else {
        return None;
    };
    Some((first.parse().ok()?, second.parse().ok()?))
}
