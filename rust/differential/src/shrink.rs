//! The smallest input that still shows a disagreement.

/// Takes parts out of a list, larger stretches first, as long as the rest still fails.
pub fn shrunk<T: Clone>(parts: Vec<T>, fails: &impl Fn(&[T]) -> bool) -> Vec<T> {
    let mut parts = parts;
    let mut size = parts.len().div_ceil(2);
    while size > 0 {
        let mut at = 0;
        while at < parts.len() {
            let end = (at + size).min(parts.len());
            let without = [&parts[..at], &parts[end..]].concat();
            if fails(&without) {
                parts = without;
            } else {
                at = end;
            }
        }
        size /= 2;
    }
    parts
}
