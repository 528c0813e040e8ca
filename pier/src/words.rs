//! Numbers with their nouns, and the word that was meant.

/// A number and its noun: 1 state, 2 states.
pub fn count(number: usize, noun: &str) -> String {
    format!("{number} {noun}{}", if number == 1 { "" } else { "s" })
}

/// The same where there may be none: no letters, 1 letter, 2 letters.
pub fn count_or_no(number: usize, noun: &str) -> String {
    match number {
        0 => format!("no {noun}s"),
        _ => count(number, noun),
    }
}

/// The known word that is at most two slips away: a letter too many, too few,
/// another, or two that changed places.
pub fn nearest(word: &str, known: impl Iterator<Item = &'static str>) -> Option<&'static str> {
    const MOST: usize = 2;
    let near = |known: &'static str| (slips(word.as_bytes(), known.as_bytes()), known);
    let (slips, found) = known.map(near).min()?;
    (slips <= MOST && slips < found.len() && slips < word.len()).then_some(found)
}

/// The fewest slips between two words (optimal string alignment), by rows.
fn slips(a: &[u8], b: &[u8]) -> usize {
    let mut rows = vec![vec![0; b.len() + 1]; a.len() + 1];
    for i in 0..=a.len() {
        for j in 0..=b.len() {
            rows[i][j] = match (i, j) {
                (0, _) => j,
                (_, 0) => i,
                _ => {
                    let other = rows[i - 1][j - 1] + usize::from(a[i - 1] != b[j - 1]);
                    let least = other.min(rows[i - 1][j] + 1).min(rows[i][j - 1] + 1);
                    if i > 1 && j > 1 && a[i - 1] == b[j - 2] && a[i - 2] == b[j - 1] {
                        least.min(rows[i - 2][j - 2] + 1)
                    } else {
                        least
                    }
                }
            };
        }
    }
    rows[a.len()][b.len()]
}

#[cfg(test)]
mod tests {
    use super::*;

    #[test]
    fn one_thing_or_several() {
        assert_eq!((count(1, "state"), count(2, "state")), ("1 state".into(), "2 states".into()));
        assert_eq!((count_or_no(0, "letter"), count_or_no(1, "letter")), ("no letters".into(), "1 letter".into()));
    }

    #[test]
    fn near_misses_are_found_and_strangers_are_not() {
        let known = ["compile", "judge", "try", "show"];
        let nearest = |word| nearest(word, known.into_iter());
        assert_eq!(nearest("complie"), Some("compile"));
        assert_eq!(nearest("compil"), Some("compile"));
        assert_eq!(nearest("jugde"), Some("judge"));
        assert_eq!(nearest("tyr"), Some("try"));
        assert_eq!(nearest("fly"), Some("try"));
        assert_eq!(nearest("x"), None);
        assert_eq!(nearest("frobnicate"), None);
    }
}
