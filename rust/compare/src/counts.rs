//! Counts of several things at once, each under its name.

/// Adds one to each of those that are so.
pub fn add(counts: &mut [u64], which: &[bool]) {
    for (count, &is_so) in counts.iter_mut().zip(which) {
        *count += u64::from(is_so);
    }
}

/// The counts behind their names, as a tally prints them.
pub fn listed<N: AsRef<str>>(counts: impl IntoIterator<Item = (N, u64)>) -> String {
    let listed = counts.into_iter();
    let listed = listed.map(|(what, count)| format!("{}: {count}", what.as_ref()));
    listed.collect::<Vec<_>>().join(", ")
}
