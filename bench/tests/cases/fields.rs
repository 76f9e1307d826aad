//! What stands after the word of a directive: names, numbers, cells and landing entries.

use std::str::FromStr;
use uldhvamm::{Lengths, NO_COST};

/// A name, and the text after the first `: ` where there is one. A `:` at the end of the line has an empty text after it.
pub fn named(text: &str) -> (&str, Option<&str>) {
    match text.split_once(": ") {
        Some((name, rest)) => (name, Some(rest)),
        None => match text.strip_suffix(':') {
            Some(name) => (name, Some("")),
            None => (text, None),
        },
    }
}

/// A name and the text after it, which is to be there.
pub fn named_text(text: &str) -> Result<(&str, &str), String> {
    match named(text) {
        (name, Some(rest)) => Ok((name, rest)),
        (name, None) => Err(format!("{name} has no `: `")),
    }
}

/// A number.
pub fn number<T: FromStr>(word: &str) -> Result<T, String> {
    word.parse()
        .map_err(|_| format!("{word} is no number here"))
}

/// So many numbers.
pub fn numbers<T: FromStr, const N: usize>(text: &str) -> Result<[T; N], String> {
    let numbers: Result<Vec<T>, String> = text.split_whitespace().map(number).collect();
    let wrong = |numbers: Vec<T>| format!("{} numbers in place of {N}", numbers.len());
    numbers?.try_into().map_err(wrong)
}

/// A name and so many numbers.
pub fn named_numbers<const N: usize>(text: &str) -> Result<(&str, [u32; N]), String> {
    let (name, rest) = named_text(text)?;
    Ok((name, numbers(rest)?))
}

/// The lengths of all tables.
pub fn lengths(text: &str) -> Result<Lengths, String> {
    let [starts, ends, prices, landings, by_end, places, cells, marks, plan, shares] =
        numbers(text)?;
    Ok(Lengths {
        starts,
        ends,
        prices,
        landings,
        by_end,
        places,
        cells,
        marks,
        plan,
        shares,
    })
}

/// Cells: values and `none`.
pub fn cells(text: &str) -> Result<Vec<u32>, String> {
    entries(text, |word| match word {
        "none" => Ok(NO_COST),
        _ => number(word),
    })
}

/// Landing entries: values.
pub fn landings(text: &str) -> Result<Vec<u16>, String> {
    entries(text, number)
}

/// Words, each with the value that it stands for, and words with `*` and how many times they stand there.
fn entries<T: Clone>(
    text: &str,
    value: impl Fn(&str) -> Result<T, String>,
) -> Result<Vec<T>, String> {
    let mut entries = Vec::new();
    for word in text.split_whitespace() {
        let (word, times) = word.split_once('*').unwrap_or((word, "1"));
        entries.extend(std::iter::repeat_n(value(word)?, number(times)?));
    }
    Ok(entries)
}
