//! What so many of 100 don't exceed.

/// Of numbers in order; 0 where there are none.
pub fn within(sorted: &[u64], share: usize) -> u64 {
    let at = (sorted.len() * share / 100).min(sorted.len().saturating_sub(1));
    sorted.get(at).copied().unwrap_or(0)
}
