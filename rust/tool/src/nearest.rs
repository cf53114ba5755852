//! What a mistyped word was meant to be.

/// The word that takes the fewest changes of a letter, if few are enough; swapped neighbours are one change.
pub fn nearest<'a>(typed: &str, known: impl Iterator<Item = &'a str>) -> Option<&'a str> {
    let most = match typed.chars().count() {
        0..=2 => 1,
        3..=5 => 2,
        _ => 3,
    };
    let rated = known.map(|x| (distance(typed, x), x));
    rated
        .filter(|x| x.0 <= most)
        .min_by_key(|x| x.0)
        .map(|x| x.1)
}

fn distance(one: &str, other: &str) -> usize {
    let (one, other): (Vec<char>, Vec<char>) = (one.chars().collect(), other.chars().collect());
    let mut rows = vec![vec![0; other.len() + 1]; one.len() + 1];
    for i in 0..=one.len() {
        for j in 0..=other.len() {
            rows[i][j] = match (i, j) {
                (0, _) => j,
                (_, 0) => i,
                _ => {
                    let changed = usize::from(one[i - 1] != other[j - 1]);
                    let kept = rows[i - 1][j - 1] + changed;
                    let swapped =
                        i > 1 && j > 1 && one[i - 1] == other[j - 2] && one[i - 2] == other[j - 1];
                    let swap = if swapped {
                        rows[i - 2][j - 2] + 1
                    } else {
                        kept
                    };
                    kept.min(swap)
                        .min(rows[i - 1][j] + 1)
                        .min(rows[i][j - 1] + 1)
                }
            };
        }
    }
    rows[one.len()][other.len()]
}

#[cfg(test)]
mod tests {
    use super::nearest;

    #[test]
    fn near_words_are_found_and_far_ones_not() {
        let known = || ["check", "sheet", "judge", "locks"].into_iter();
        assert_eq!(nearest("chek", known()), Some("check"));
        assert_eq!(nearest("jugde", known()), Some("judge"));
        assert_eq!(nearest("shet", known()), Some("sheet"));
        assert_eq!(nearest("frobnicate", known()), None);
        assert_eq!(nearest("", known()), None);
    }
}
