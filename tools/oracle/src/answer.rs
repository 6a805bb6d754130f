//! Prints all of what one of moxcms's readers returned; decides nothing itself.
//!
//! Floats are printed by their bits, and after a slash as the number of 65536ths; tables and strings entry by entry
//! in hexadecimal.
use crate::call::{Value, call};
use crate::*;
use std::fmt::Write;

/// The answer line of one job.
pub fn line(reader: u8, profile: &[u8], offset: u32, size: u32, options: &ParsingOptions) -> String {
    match call(reader, profile, offset, size, options) {
        None => "no oracle".to_string(),
        Some(Ok(Some(value))) => format!("value {}", shown(value)),
        Some(Ok(None)) => "absent".to_string(),
        Some(Err(error)) => {
            let all = format!("{error:?}");
            match all.split_once('(') {
                None => format!("error {all}"),
                Some((class, _)) => format!("error {class} | {error}"),
            }
        }
    }
}

fn shown(value: Value) -> String {
    match value {
        Value::Table(table) => lookup_table(table),
        Value::Curve(curve, consumed) => format!("{} consumed={consumed}", tone_curve(&curve)),
        Value::Text(found) => text(found),
        Value::Chad(m) => matrix(&m),
        Value::Technology(t) => format!("{t:?}"),
        Value::Date(d) => {
            format!("{} {} {} {} {} {}", d.year, d.month, d.day_of_the_month, d.hours, d.minutes, d.seconds)
        }
        Value::Measurement(m) => format!(
            "observer={:?} backing={} geometry={:?} flare={:08x} illuminant={:?}",
            m.observer, xyz(&m.backing), m.geometry, m.flare.to_bits(), m.illuminant
        ),
        Value::Conditions(v) => {
            format!("illuminant={} surround={} observer={:?}", xyz(&v.illuminant), xyz(&v.surround), v.observer)
        }
        Value::Xyz(v) => doubles(&[v.x, v.y, v.z]),
        Value::Cicp(c) => format!(
            "primaries={:?} transfer={:?} matrix={:?} full={}",
            c.color_primaries, c.transfer_characteristics, c.matrix_coefficients, c.full_range
        ),
    }
}

fn lookup_table(table: LutWarehouse) -> String {
    match table {
        LutWarehouse::Lut(t) => format!(
            "{:?} in={} out={} grid={} nin={} nout={} matrix={} input={} clut={} output={}",
            t.lut_type,
            t.num_input_channels,
            t.num_output_channels,
            t.num_clut_grid_points,
            t.num_input_table_entries,
            t.num_output_table_entries,
            matrix(&t.matrix),
            store(&t.input_table),
            store(&t.clut_table),
            store(&t.output_table)
        ),
        LutWarehouse::Multidimensional(t) => format!(
            "Multi in={} out={} grid={} matrix={} bias={} clut={} A={} M={} B={}",
            t.num_input_channels,
            t.num_output_channels,
            hex(&t.grid_points),
            matrix(&t.matrix),
            doubles(&t.bias.v),
            t.clut.as_ref().map_or("none".to_string(), store),
            tone_curves(&t.a_curves),
            tone_curves(&t.m_curves),
            tone_curves(&t.b_curves)
        ),
    }
}

fn tone_curves(curves: &[ToneReprCurve]) -> String {
    format!("{}[{}]", curves.len(), joined(curves, ";", tone_curve))
}

fn tone_curve(curve: &ToneReprCurve) -> String {
    match curve {
        ToneReprCurve::Lut(entries) => format!("lut:{}", words(entries)),
        ToneReprCurve::Parametric(parameters) => format!("para:{}:{}", parameters.len(), floats(parameters)),
    }
}

fn store(table: &LutStore) -> String {
    match table {
        LutStore::Store8(entries) => format!("8:{}:x{}", entries.len(), hex(entries)),
        LutStore::Store16(entries) => words(entries),
    }
}

fn text(text: ProfileText) -> String {
    match text {
        ProfileText::PlainString(t) => format!("text {}", hex(t.as_bytes())),
        ProfileText::Localizable(records) => {
            let record = |r: &LocalizableString| {
                format!("{},{},{}", hex(r.language.as_bytes()), hex(r.country.as_bytes()), hex(r.value.as_bytes()))
            };
            format!("mluc {}[{}]", records.len(), joined(&records, ";", record))
        }
        ProfileText::Description(d) => format!(
            "desc ascii={} lang={} unicode={} script={} mac={}",
            hex(d.ascii_string.as_bytes()),
            d.unicode_language_code,
            hex(d.unicode_string.as_bytes()),
            d.script_code_code,
            hex(d.mac_string.as_bytes())
        ),
    }
}

fn matrix(m: &Matrix3d) -> String {
    doubles(m.v.as_flattened())
}

fn xyz(v: &Xyz) -> String {
    floats(&[v.x, v.y, v.z])
}

fn floats(values: &[f32]) -> String {
    joined(values, ",", |v| format!("{:08x}/{}", v.to_bits(), (*v as f64 * 65536.) as i64))
}

fn doubles(values: &[f64]) -> String {
    joined(values, ",", |v| format!("{:016x}/{}", v.to_bits(), (v * 65536.) as i64))
}

fn words(entries: &[u16]) -> String {
    let bytes: Vec<u8> = entries.iter().flat_map(|e| e.to_be_bytes()).collect();
    format!("16:{}:x{}", entries.len(), hex(&bytes))
}

fn hex(bytes: &[u8]) -> String {
    let mut digits = String::with_capacity(2 * bytes.len());
    for byte in bytes {
        write!(digits, "{byte:02x}").unwrap();
    }
    digits
}

fn joined<T>(items: &[T], separator: &str, show: impl Fn(&T) -> String) -> String {
    items.iter().map(show).collect::<Vec<_>>().join(separator)
}
