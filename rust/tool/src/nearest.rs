//! The nearest word, for a message about an unknown one.

/// The known word that an unknown one was likely meant to be: the only one that begins with its letters, three at
/// least, or the first of those that the fewest letters put in, left out, changed or exchanged with their neighbour
/// lead to. These may be a third of its letters.
pub fn nearest<'k>(word: &str, known: &[&'k str]) -> Option<&'k str> {
    let word = letters(word);
    let begun: Vec<_> = known.iter().filter(|known| letters(known).starts_with(&word)).collect();
    if let ([only], 3..) = (&begun[..], word.len()) {
        return Some(only);
    }
    let most = word.len().div_ceil(3);
    known
        .iter()
        .map(|known| (letters(known), *known))
        .filter(|(letters, _)| letters.len().abs_diff(word.len()) <= most)
        .map(|(letters, known)| (distance(&word, &letters), known))
        .filter(|(distance, _)| *distance <= most)
        .min_by_key(|(distance, _)| *distance)
        .map(|(_, known)| known)
}

/// Case makes no difference.
fn letters(word: &str) -> Vec<char> {
    word.chars().map(|letter| letter.to_ascii_lowercase()).collect()
}

/// The edit distance with exchanges of neighbours, each letter being edited once at most: row i, column j has that
/// of the first i letters and the first j.
fn distance(from: &[char], to: &[char]) -> usize {
    let mut rows = vec![(0..=to.len()).collect::<Vec<usize>>()];
    for i in 1..=from.len() {
        let mut row = vec![i];
        for j in 1..=to.len() {
            let changed = rows[i - 1][j - 1] + usize::from(from[i - 1] != to[j - 1]);
            let mut least = changed.min(rows[i - 1][j] + 1).min(row[j - 1] + 1);
            if i > 1 && j > 1 && from[i - 1] == to[j - 2] && from[i - 2] == to[j - 1] {
                least = least.min(rows[i - 2][j - 2] + 1);
            }
            row.push(least);
        }
        rows.push(row);
    }
    rows[from.len()][to.len()]
}

#[cfg(test)]
mod tests {
    use super::*;

    #[test]
    fn distances() {
        let distance = |from, to| distance(&letters(from), &letters(to));
        assert_eq!(distance("", ""), 0);
        assert_eq!(distance("", "set"), 3);
        assert_eq!(distance("set", ""), 3);
        assert_eq!(distance("SET", "set"), 0);
        assert_eq!(distance("ste", "set"), 1);
        assert_eq!(distance("setpont", "setpoint"), 1);
        assert_eq!(distance("tack", "tick"), 1);
        assert_eq!(distance("ca", "abc"), 3);
    }

    #[test]
    fn near_and_far() {
        let known = ["tick", "setpoint", "set", "read"];
        assert_eq!(nearest("setpiont", &known), Some("setpoint"));
        assert_eq!(nearest("TIK", &known), Some("tick"));
        assert_eq!(nearest("st", &known), Some("set"));
        assert_eq!(nearest("red", &known), Some("read"));
        assert_eq!(nearest("rset", &known), Some("set"));
        assert_eq!(nearest("window", &known), None);
        assert_eq!(nearest("", &known), None);
        assert_eq!(nearest("setpunkt", &known), Some("setpoint"));
        assert_eq!(nearest("setp", &known), Some("setpoint"));
        assert_eq!(nearest(&"t".repeat(1 << 20), &known), None);
        assert_eq!(nearest("b", &["a", "c"]), Some("a"));
    }
}
