//! Calls one of moxcms's readers by its number in a job.
use crate::*;

pub enum Value {
    Table(LutWarehouse),
    Curve(ToneReprCurve, usize), // with the bytes consumed
    Text(ProfileText),
    Chad(Matrix3d),
    Technology(TechnologySignatures),
    Date(ColorDateTime),
    Measurement(Measurement),
    Conditions(ViewingConditions),
    Xyz(Xyzd),
    Cicp(CicpProfile),
}

pub type Answer = Result<Option<Value>, CmsError>;

/// What the reader answers; nothing if moxcms has none of this number.
pub fn call(reader: u8, profile: &[u8], offset: u32, size: u32, options: &ParsingOptions) -> Option<Answer> {
    let (entry, size) = (offset as usize, size as usize);
    Some(match reader {
        1 => some(called::read_lut_tag(profile, offset, size, options), Value::Table),
        2 => {
            let mut consumed = 0;
            let curve = called::read_trc_tag(profile, entry, size, &mut consumed, options);
            some(curve, |c| Value::Curve(c, consumed))
        }
        3 => some(called::read_string_tag(profile, entry, size), Value::Text),
        4 => some(called::read_chad_tag(profile, entry, size), Value::Chad),
        5 => some(called::read_tech_tag(profile, entry, size), Value::Technology),
        6 => some(called::read_date_time_tag(profile, entry, size), Value::Date),
        7 => some(called::read_meas_tag(profile, entry, size), Value::Measurement),
        8 => some(called::read_viewing_conditions(profile, entry, size), Value::Conditions),
        9 => some(called::read_xyz_tag(profile, entry, size).map(Some), Value::Xyz),
        10 => some(called::read_cicp_tag(profile, entry, size), Value::Cicp),
        _ => return None,
    })
}

fn some<T>(answer: Result<Option<T>, CmsError>, value: impl FnOnce(T) -> Value) -> Answer {
    answer.map(|found| found.map(value))
}
