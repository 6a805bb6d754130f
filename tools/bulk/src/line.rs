//! A line of `answers`, taken apart.

pub const FIRST_MARK: u32 = 0xA5A5_0000; // what word 0 of those lent holds before a call; word i holds FIRST_MARK + i

#[derive(Debug, PartialEq)]
pub enum Ours<'a> {
    Absent,
    Default,
    Refused(u32),
    /// The word behind `value`, if one stands there, and the numbers.
    Value(&'a str, Vec<i64>),
}

#[derive(Debug)]
pub struct Line<'a> {
    pub answer: Ours<'a>,
    pub lent: Vec<u32>,
}

/// The line of a job, if it is one that the reader may print for so many words lent.
pub fn parsed(line: &str, reader: u8, words: u32) -> Option<Line<'_>> {
    let (text, lent) = match line.split_once(" |") {
        Some((text, lent)) if matches!(reader, 1 | 3 | 11) => (text, lent),
        None if !matches!(reader, 1 | 3 | 11) => (line, ""),
        _ => return None,
    };
    let lent: Vec<u32> = lent.split(' ').skip(1).map(|word| number(word)?.try_into().ok()).collect::<Option<_>>()?;
    if matches!(reader, 1 | 3 | 11) && lent.len() != words as usize {
        return None;
    }
    Some(Line { answer: answer(text)?, lent })
}

fn answer(text: &str) -> Option<Ours<'_>> {
    if let Some(why) = text.strip_prefix("refused ") {
        return Some(Ours::Refused(number(why)?.try_into().ok()?));
    }
    match text {
        "absent" => return Some(Ours::Absent),
        "default" => return Some(Ours::Default),
        _ => {}
    }
    let rest = text.strip_prefix("value ")?;
    let (name, numbers) = match rest.split_once(' ') {
        Some((name, numbers)) if number(name).is_none() => (name, numbers),
        _ => ("", rest),
    };
    Some(Ours::Value(name, numbers.split(' ').map(number).collect::<Option<_>>()?))
}

/// A number in decimal as our program writes it.
fn number(word: &str) -> Option<i64> {
    let digits = word.strip_prefix('-').unwrap_or(word);
    let plain = digits.bytes().all(|digit| digit.is_ascii_digit()) && (digits == "0" || !digits.starts_with('0')) && word != "-0";
    if plain { word.parse().ok() } else { None }
}

impl Line<'_> {
    /// The words from this one on are as they were before the call.
    pub fn left_alone(&self, from: usize) -> bool {
        self.lent.len() >= from && (from..).zip(&self.lent[from..]).all(|(at, word)| *word == FIRST_MARK + at as u32)
    }

    /// The row of the printed table that the answer belongs to.
    pub fn row(&self) -> String {
        match &self.answer {
            Ours::Absent => "absent".to_string(),
            Ours::Default => "default".to_string(),
            Ours::Refused(why) => format!("refused {why:>2}"),
            Ours::Value("", numbers) if numbers.len() == 11 => format!("value curve {}", numbers[0]),
            Ours::Value(name, _) => format!("value {name}").trim_end().to_string(),
        }
    }
}
