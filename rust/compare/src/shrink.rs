//! The shortest failing input that is found.

/// Takes out ever smaller runs of items for as long as the rest still fails.
pub fn shrink<T: Clone>(items: &[T], fails: impl Fn(&[T]) -> bool) -> Vec<T> {
    let mut left = items.to_vec();
    let mut size = left.len().div_ceil(2).max(1);
    loop {
        let mut at = 0;
        let mut cut = false;
        while at < left.len() {
            let mut fewer = left[..at].to_vec();
            fewer.extend_from_slice(&left[(at + size).min(left.len())..]);
            if fails(&fewer) {
                left = fewer;
                cut = true;
            } else {
                at += size;
            }
        }
        if size == 1 && !cut {
            return left;
        }
        size = (size / 2).max(1);
    }
}

#[cfg(test)]
mod tests {
    use super::shrink;

    #[test]
    fn keeps_what_the_failure_needs() {
        let items: Vec<u32> = (0..1000).collect();
        let fails = |s: &[u32]| s.contains(&17) && s.contains(&18) && s.contains(&900);
        assert_eq!(shrink(&items, fails), [17, 18, 900]);
    }

    #[test]
    fn nothing_is_needed() {
        assert!(shrink(&[1, 2, 3], |_: &[i32]| true).is_empty());
    }
}
