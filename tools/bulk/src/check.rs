//! Holds a line of ours against what moxcms's reader returned. Our integers become floats, and our ranges strings and tables, as the
//! Rust makes them, and all is compared by bits: moxcms's own `==` has a tolerance in places.
//!
//! This file is there twice, once for each walk: `super::plain` has the answers, `super::labelled` the lines that they come from.
use super::{labelled, plain};
use crate::job::Job;
use crate::line::{Line, Ours};
use crate::tags::PARAMETERS;
use plain::call::{Value, call};
use plain::*;
use std::mem::discriminant;

/// The number of the refusal that a line of moxcms 0.9.1's reader.rs gives, of those whose error is `InvalidProfile`. The lines that
/// are missing cannot be reached through the readers that a job names.
const LINES: [(u32, u32); 34] = [
    (117, 1), (121, 2), (124, 3), (136, 1), (187, 1), (204, 2), (242, 2), (269, 2), (274, 2), (325, 2), (383, 2), (401, 2), (472, 8),
    (479, 2), (579, 2), (596, 15), (614, 15), (618, 15), (623, 16), (636, 2), (648, 2), (660, 2), (818, 1), (821, 1), (833, 17), (840, 17),
    (853, 2), (857, 1), (880, 1), (904, 1), (913, 1), (951, 1), (962, 2), (983, 1),
];
const DEFAULT_LINES: [u32; 2] = [947, 957];

/// Behind what is wrong, where the Rust returns the same for our answer as for the right one.
const BY_LINE: &str = ", as only its line in reader.rs shows";

/// Either that line and answer agree, with the number of the exception that they needed, or what is wrong.
pub fn check(job: &Job, line: &Line) -> Result<Option<usize>, String> {
    let rust = call(moxcms_reader(job), &job.profile, job.offset, job.size, &options(job)).ok_or("no such reader")?;
    let written = match (&line.answer, &rust) {
        (Ours::Absent, Ok(None)) => 0,
        (Ours::Refused(14), Ok(Some(value))) => {
            let (records, words) = records(value);
            require(records > job.words as usize / words, "refused 14, and the slots suffice")?;
            0
        }
        (Ours::Refused(why), Err(error)) => {
            let number = number_of(job, error)?;
            let same_error = matches!(error, CmsError::InvalidProfile) && LINES.iter().any(|(_, number)| number == why);
            require(*why == number, &format!("the Rust's error is that of refusal {number}{}", if same_error { BY_LINE } else { "" }))?;
            0
        }
        (Ours::Default, Ok(Some(Value::Xyz(v)))) => {
            require([v.x, v.y, v.z].iter().all(|number| number.to_bits() == 0), "the Rust has no zeros")?;
            require(DEFAULT_LINES.contains(&line_of(job)), &format!("a value in the Rust{BY_LINE}"))?;
            return Ok(Some(2));
        }
        (Ours::Value(_, codes), Err(CmsError::InvalidCicp)) if job.reader == 10 => {
            require(codes.len() == 4 && codes[2] >= 18, "a matrix code that the Rust takes")?;
            require(job.in_tag(8, 4).is_some_and(|bytes| bytes.iter().map(|b| i64::from(*b)).eq(codes.iter().copied())), "the codes")?;
            return Ok(Some(0));
        }
        (Ours::Value(name, numbers), Ok(Some(value))) => {
            same(job, name, numbers, &line.lent, value)?;
            let (records, words) = records(value);
            records * words
        }
        _ => return Err("the Rust has another kind of answer".to_string()),
    };
    require(line.left_alone(written), "a lent word behind the records is not as it was")?;
    Ok(matches!((&line.answer, job.reader), (Ours::Value(..), 6)).then_some(1))
}

/// What moxcms answered, for a message.
pub fn rust_line(job: &Job) -> String {
    let line = answer::line(moxcms_reader(job), &job.profile, job.offset, job.size, &options(job));
    format!("{line} (reader.rs line {})", line_of(job))
}

/// The readers of the book walk, 11 and 12, are 1 and 2 there.
fn moxcms_reader(job: &Job) -> u8 {
    if job.reader > 10 { job.reader - 10 } else { job.reader }
}

fn options(job: &Job) -> ParsingOptions {
    ParsingOptions {
        max_profile_size: usize::MAX,
        max_allowed_trc_size: job.curve_limit as usize,
        max_allowed_clut_size: job.grid_limit as usize,
    }
}

fn require(holds: bool, otherwise: &str) -> Result<(), String> {
    if holds { Ok(()) } else { Err(otherwise.to_string()) }
}

/// The line of reader.rs that the labelled build notes for this job, or 0.
fn line_of(job: &Job) -> u32 {
    let ParsingOptions { max_profile_size, max_allowed_trc_size, max_allowed_clut_size } = options(job);
    let options = labelled::ParsingOptions { max_profile_size, max_allowed_trc_size, max_allowed_clut_size };
    labelled::label::take();
    let _ = labelled::call::call(moxcms_reader(job), &job.profile, job.offset, job.size, &options);
    labelled::label::take()
}

/// Our number for an error of the Rust's.
fn number_of(job: &Job, error: &CmsError) -> Result<u32, String> {
    Ok(match error {
        CmsError::InvalidProfile => {
            let line = line_of(job);
            LINES.iter().find(|(at, _)| *at == line).ok_or(format!("no refusal at line {line}"))?.1
        }
        CmsError::OverflowingError => 4,
        CmsError::IncorrectlyFormedLut(text) if text.contains("was zero") => 5,
        CmsError::IncorrectlyFormedLut(text) if text.contains("exceeded 10_000_000") => 6,
        CmsError::IncorrectlyFormedLut(text) if text.contains("less than 2") => 7,
        CmsError::MalformedTrcCurve(text) if text == "Unknown parametric curve tag" => 9,
        CmsError::CurveLutIsTooLarge => 10,
        CmsError::MalformedTrcCurve(text) if text == "Parametric curve has unknown entries count" => 12,
        CmsError::MalformedTrcCurve(_) => 11,
        CmsError::ParametricCurveZeroDivision => 13,
        _ => return Err("an error that no refusal stands for".to_string()),
    })
}

/// How many records a value has, and the words of one.
fn records(value: &Value) -> (usize, usize) {
    match value {
        Value::Table(LutWarehouse::Multidimensional(t)) => (t.a_curves.len() + t.m_curves.len() + t.b_curves.len(), 10),
        Value::Text(ProfileText::Localizable(records)) => (records.len(), 4),
        _ => (0, 1),
    }
}

fn same(job: &Job, name: &str, numbers: &[i64], lent: &[u32], value: &Value) -> Result<(), String> {
    match value {
        Value::Table(LutWarehouse::Lut(t)) => same_mft(job, name, numbers, t),
        Value::Table(LutWarehouse::Multidimensional(t)) => same_mab(job, name, numbers, lent, t),
        Value::Curve(curve, consumed) => {
            require(numbers.len() == 11 && numbers[1] == 12 && numbers[10] == *consumed as i64, "a record of a lone curve")?;
            let words: Vec<u32> = numbers[..10].iter().map(|number| *number as u32).collect();
            same_curve(job, &words, curve)
        }
        Value::Text(text) => same_text(job, name, numbers, lent, text),
        Value::Chad(m) => doubles(numbers, m.v.as_flattened()),
        Value::Technology(technology) => {
            let word = u32::try_from(only(numbers)?).map_err(|_| "no signature")?;
            require(TechnologySignatures::from(word) == *technology, "the technology")
        }
        Value::Date(d) => {
            let bytes = numbers.iter().map(|n| u8::try_from(*n)).collect::<Result<Vec<u8>, _>>().map_err(|_| "no bytes")?;
            let date = [d.year, d.month, d.day_of_the_month, d.hours, d.minutes, d.seconds];
            require(bytes == date.map(u16::to_be_bytes).as_flattened(), "the date")
        }
        Value::Measurement(m) => {
            require(numbers.len() == 7, "seven numbers")?;
            let [observer, geometry, flare, illuminant] = [0, 4, 5, 6].map(|at| numbers[at] as u32);
            require(discriminant(&StandardObserver::from(observer)) == discriminant(&m.observer), "the observer")?;
            floats(&numbers[1..4], &[m.backing.x, m.backing.y, m.backing.z])?;
            require(discriminant(&MeasurementGeometry::from(geometry)) == discriminant(&m.geometry), "the geometry")?;
            require((flare as f32 / 65535.).to_bits() == m.flare.to_bits(), "the flare")?;
            require(discriminant(&StandardIlluminant::from(illuminant)) == discriminant(&m.illuminant), "the illuminant")
        }
        Value::Conditions(v) => {
            require(numbers.len() == 7, "seven numbers")?;
            floats(&numbers[..3], &[v.illuminant.x, v.illuminant.y, v.illuminant.z])?;
            floats(&numbers[3..6], &[v.surround.x, v.surround.y, v.surround.z])?;
            require(discriminant(&StandardObserver::from(numbers[6] as u32)) == discriminant(&v.observer), "the number at byte 32")
        }
        Value::Xyz(v) => {
            doubles(numbers, &[v.x, v.y, v.z])?;
            require(!DEFAULT_LINES.contains(&line_of(job)), &format!("a default in the Rust{BY_LINE}"))
        }
        Value::Cicp(c) => {
            let codes = numbers.iter().map(|n| u8::try_from(*n)).collect::<Result<Vec<u8>, _>>().map_err(|_| "no bytes")?;
            require(codes.len() == 4, "four bytes")?;
            let primaries = CicpColorPrimaries::try_from(codes[0]).map_err(|_| "no primaries")?;
            let transfer = TransferCharacteristics::try_from(codes[1]).map_err(|_| "no transfer")?;
            let matrix = MatrixCoefficients::try_from(codes[2]).map_err(|_| "no matrix")?;
            require(discriminant(&primaries) == discriminant(&c.color_primaries), "the primaries")?;
            require(discriminant(&transfer) == discriminant(&c.transfer_characteristics), "the transfer")?;
            require(discriminant(&matrix) == discriminant(&c.matrix_coefficients), "the matrix")?;
            require((codes[3] == 1) == c.full_range, "the range")
        }
    }
}

fn only(numbers: &[i64]) -> Result<i64, String> {
    match numbers {
        [number] => Ok(*number),
        _ => Err("one number".to_string()),
    }
}

fn floats(numbers: &[i64], found: &[f32]) -> Result<(), String> {
    let made = numbers.iter().map(|number| i32::try_from(*number).map(|number| (number as f32 / 65536.).to_bits()));
    require(made.eq(found.iter().map(|float| Ok(float.to_bits()))), "the 32-bit floats")
}

fn doubles(numbers: &[i64], found: &[f64]) -> Result<(), String> {
    let made = numbers.iter().map(|number| i32::try_from(*number).map(|number| (f64::from(number) / 65536.).to_bits()));
    require(made.eq(found.iter().map(|float| Ok(float.to_bits()))), "the 64-bit floats")
}

/// A range of the tag holds this table.
fn table(job: &Job, range: &[i64], found: &LutStore) -> Result<(), String> {
    let bytes = job.in_tag(range[0] as u64, range[1] as u64).ok_or("a range past the profile")?;
    require(range[0] + range[1] <= i64::from(job.size), "a range past the tag")?;
    let same = match found {
        LutStore::Store8(entries) => bytes == entries,
        LutStore::Store16(entries) => bytes == entries.iter().flat_map(|entry| entry.to_be_bytes()).collect::<Vec<u8>>(),
    };
    require(same, "a table")
}

fn same_mft(job: &Job, name: &str, numbers: &[i64], t: &LutDataType) -> Result<(), String> {
    require(numbers.len() == 20 && (name == "mft1" || name == "mft2"), "a line of this type")?;
    require((name == "mft1") == (t.lut_type == LutType::Lut8), "the type")?;
    let head = [t.num_input_channels, t.num_output_channels, t.num_clut_grid_points].map(i64::from);
    require(numbers[..3] == head, "channels and grid")?;
    require(numbers[3..5] == [t.num_input_table_entries, t.num_output_table_entries].map(i64::from), "the entries")?;
    doubles(&numbers[5..14], t.matrix.v.as_flattened())?;
    let start = if name == "mft1" { 48 } else { 52 };
    let follow = numbers[14] == start && numbers[16] == start + numbers[15] && numbers[18] == numbers[16] + numbers[17];
    require(follow, "tables without gaps")?;
    table(job, &numbers[14..16], &t.input_table)?;
    table(job, &numbers[16..18], &t.clut_table)?;
    table(job, &numbers[18..20], &t.output_table)
}

fn same_mab(job: &Job, name: &str, numbers: &[i64], lent: &[u32], t: &LutMultidimensionalType) -> Result<(), String> {
    require(numbers.len() == 36 && job.in_tag(0, 4) == Some(format!("{name} ").as_bytes()), "a line of this type")?;
    require(numbers[..2] == [t.num_input_channels, t.num_output_channels].map(i64::from), "the channels")?;
    require(numbers[2..18] == t.grid_points.map(i64::from), "the grid")?;
    doubles(&numbers[18..27], t.matrix.v.as_flattened())?;
    doubles(&numbers[27..30], &t.bias.v)?;
    match &t.clut {
        None => require(numbers[30..33] == [0, 0, 0], "no colour table")?,
        Some(found) => {
            let size = if matches!(found, LutStore::Store8(_)) { 1 } else { 2 };
            require(numbers[32] == size, "the entry size")?;
            table(job, &numbers[30..32], found)?;
        }
    }
    let runs = [&t.a_curves, &t.m_curves, &t.b_curves];
    require(numbers[33..36] == runs.map(|run| run.len() as i64), "the numbers of curves")?;
    require(lent.len() >= 10 * runs.iter().map(|run| run.len()).sum::<usize>(), "slots for the records")?;
    for (record, curve) in lent.chunks_exact(10).zip(runs.into_iter().flatten()) {
        same_curve(job, record, curve)?;
    }
    Ok(())
}

/// A record says this curve, and the curve's head stands in front of its data.
fn same_curve(job: &Job, record: &[u32], curve: &ToneReprCurve) -> Result<(), String> {
    let [kind, start, count] = [record[0], record[1], record[2]];
    let head = u64::from(start).checked_sub(12).and_then(|at| job.in_tag(at, 12)).ok_or("a start without a head")?;
    match curve {
        ToneReprCurve::Lut(entries) => {
            let wanted = [u32::from(!entries.is_empty()), entries.len() as u32, 0];
            require([kind, count, record[3..].iter().fold(0, |all, word| all | word)] == wanted, "the record of a table")?;
            require(&head[..4] == b"curv" && head[8..] == count.to_be_bytes(), "no table at its start")?;
            let bytes = job.in_tag(u64::from(start), 2 * u64::from(count)).ok_or("a table past the profile")?;
            require(bytes.chunks(2).eq(entries.iter().map(|entry| entry.to_be_bytes())), "the entries of a table")
        }
        ToneReprCurve::Parametric(parameters) => {
            let function = PARAMETERS.iter().position(|count| *count == parameters.len()).ok_or("no such function")?;
            require(kind == function as u32 + 2 && count as usize == parameters.len(), "the record of a function")?;
            require(&head[..4] == b"para" && head[8..10] == (function as u16).to_be_bytes(), "no function at its start")?;
            let (used, unused) = record[3..].split_at(parameters.len());
            require(unused.iter().all(|word| *word == 0), "an unused parameter is not 0")?;
            let bytes = job.in_tag(u64::from(start), 4 * u64::from(count)).ok_or("parameters past the profile")?;
            require(bytes.chunks(4).eq(used.iter().map(|word| word.to_be_bytes())), "the parameters at the start")?;
            let made = used.iter().map(|word| (*word as i32 as f32 / 65536.).to_bits());
            require(made.eq(parameters.iter().map(|float| float.to_bits())), "the parameters")
        }
    }
}

fn same_text(job: &Job, name: &str, numbers: &[i64], lent: &[u32], text: &ProfileText) -> Result<(), String> {
    match text {
        ProfileText::PlainString(found) => {
            require(name == "text" && numbers.len() == 2 && numbers[0] == 8, "a line of `text`")?;
            require(utf8(job, numbers[0], numbers[1])? == *found, "the string")
        }
        ProfileText::Description(found) => {
            require(name == "desc" && numbers.len() == 5 && numbers[0] == 12, "a line of `desc`")?;
            require(utf8(job, numbers[0], numbers[1])? == found.ascii_string, "the ASCII string")?;
            require(numbers[2] == i64::from(found.unicode_language_code), "the language")?;
            require(utf16(job, numbers[3], numbers[4])? == found.unicode_string, "the Unicode string")
        }
        ProfileText::Localizable(records) => {
            require(name == "mluc" && numbers == [records.len() as i64], "a line of `mluc`")?;
            require(lent.len() >= 4 * records.len(), "slots for the records")?;
            for (words, record) in lent.chunks_exact(4).zip(records) {
                let codes = [(words[0], &record.language), (words[1], &record.country)];
                for (word, code) in codes {
                    let bytes = u16::try_from(word).map_err(|_| "a code of two bytes")?.to_be_bytes();
                    require(String::from_utf8_lossy(&bytes) == *code, "a code")?;
                }
                require(utf16(job, i64::from(words[2]), i64::from(words[3]))? == record.value, "a string")?;
            }
            Ok(())
        }
    }
}

/// The bytes of a range of the tag; the size 0 counts as 12.
fn range(job: &Job, start: i64, length: i64) -> Result<&[u8], String> {
    let size = if job.size == 0 { 12 } else { i64::from(job.size) };
    require(start >= 0 && length >= 0 && start + length <= size, "a range past the tag")?;
    job.in_tag(start as u64, length as u64).ok_or("a range past the profile".to_string())
}

fn utf8(job: &Job, start: i64, length: i64) -> Result<String, String> {
    Ok(String::from_utf8_lossy(range(job, start, length)?).to_string())
}

fn utf16(job: &Job, start: i64, length: i64) -> Result<String, String> {
    let units: Vec<u16> = range(job, start, length)?.chunks(2).map(|unit| u16::from_be_bytes(unit.try_into().unwrap_or_default())).collect();
    require(length % 2 == 0, "an odd byte in a string")?;
    Ok(String::from_utf16_lossy(&units))
}
