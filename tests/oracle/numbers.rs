//! The numbers of a request: read from words, counted off in lists, held to limits.

/// A count, that many numbers, and what stands behind them.
pub fn counted(numbers: &[i64]) -> Result<(&[i64], &[i64]), String> {
    let (count, rest) = numbers.split_first().ok_or("a count is missing")?;
    usize::try_from(*count)
        .ok()
        .and_then(|count| rest.split_at_checked(count))
        .ok_or_else(|| format!("fewer than {count} numbers"))
}

pub fn end_of(numbers: &[i64]) -> Result<(), String> {
    match numbers {
        [] => Ok(()),
        _ => Err("numbers left over".to_string()),
    }
}

pub fn spaced(numbers: &[u8]) -> String {
    let words: Vec<String> = numbers.iter().map(u8::to_string).collect();
    words.join(" ")
}

/// A list behind its count, as requests have it.
pub fn behind_count(list: &[u8]) -> Vec<u8> {
    [&[list.len() as u8], list].concat()
}

pub fn unless(none: i64, number: i64) -> Option<i64> {
    (number != none).then_some(number)
}

pub fn below(limit: usize, number: i64) -> Result<usize, String> {
    usize::try_from(number)
        .ok()
        .filter(|number| *number < limit)
        .ok_or_else(|| format!("{number} is not below {limit}"))
}

pub fn byte(number: i64) -> Result<u8, String> {
    below(256, number).map(|number| number as u8)
}

pub fn bytes(numbers: &[i64]) -> Result<Vec<u8>, String> {
    numbers.iter().map(|&number| byte(number)).collect()
}

pub fn number(word: &str) -> Result<i64, String> {
    word.parse().map_err(|_| format!("`{word}` is no number"))
}
