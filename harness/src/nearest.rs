//! The nearest word to one that was mistyped.

/// The one of these words that is nearest to the mistyped one, with at most one slip in three
/// letters. None where all are further off.
pub fn nearest<'a>(mistyped: &str, words: &[&'a str]) -> Option<&'a str> {
    let letters = |word: &str| -> Vec<char> { word.to_lowercase().chars().collect() };
    let mistyped = letters(mistyped);
    let near = words.iter().filter_map(|&word| {
        let word_letters = letters(word);
        let most = mistyped.len().max(word_letters.len()) / 3;
        // A very long word is far off by its length, and is not compared.
        if mistyped.len().abs_diff(word_letters.len()) > most {
            return None;
        }
        Some((slips(&mistyped, &word_letters), word)).filter(|&(slips, _)| slips <= most)
    });
    near.min_by_key(|&(slips, _)| slips).map(|(_, word)| word)
}

/// How many slips lead from one word to another. A slip is a letter too many, too few or wrong,
/// or two neighbours that changed places.
fn slips(from: &[char], to: &[char]) -> usize {
    let mut rows: Vec<Vec<usize>> = vec![(0..=to.len()).collect()];
    for i in 1..=from.len() {
        let mut row = vec![i];
        for j in 1..=to.len() {
            let wrong = rows[i - 1][j - 1] + usize::from(from[i - 1] != to[j - 1]);
            let mut least = wrong.min(rows[i - 1][j] + 1).min(row[j - 1] + 1);
            if i > 1 && j > 1 && from[i - 1] == to[j - 2] && from[i - 2] == to[j - 1] {
                least = least.min(rows[i - 2][j - 2] + 1);
            }
            row.push(least);
        }
        rows.push(row);
    }
    rows[from.len()][to.len()]
}
