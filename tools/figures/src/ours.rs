//! Our readers, as other programs call them: through include/khalyksor.rs.
use crate::Kind;
use crate::khalyksor::*;
use crate::tags::{Reader, Tag};
use std::hint::black_box;

/// What is lent to a call: the words of the longest answer, and slots for the curves of any lookup table.
pub struct Room {
    out: [u64; KHALYKSOR_LUT_WORDS],
    slots: Vec<u32>,
}

impl Room {
    pub fn new() -> Room {
        Room { out: [0; KHALYKSOR_LUT_WORDS], slots: vec![0; KHALYKSOR_LUT_RECORDS as usize * KHALYKSOR_CURVE_RECORD_WORDS] }
    }
}

/// What a status says. A default counts as an absence.
pub fn kind(status: u32) -> Kind {
    match status {
        KHALYKSOR_VALUE => Kind::Value,
        KHALYKSOR_ABSENT | KHALYKSOR_DEFAULT => Kind::Absent,
        _ => Kind::Refused,
    }
}

/// Our reader, on the crate walk: one call, and its status.
pub fn reader(of: Reader) -> fn(&Tag, &mut Room) -> u32 {
    macro_rules! call {
        ($name:ident, $tag:ident, $room:ident $(, $more:expr)*) => {{
            let (profile, offset, size) = (black_box(&$tag.profile), black_box($tag.offset), black_box($tag.size));
            let status = unsafe {
                $name(profile.as_ptr(), profile.len() as u64, offset, size $(, $more)*, $room.out.as_mut_ptr(), $room.out.len() as u64)
            };
            black_box(&$room.out);
            status
        }};
    }
    match of {
        Reader::Lut => |t, r| call!(khalyksor_read_lut_tag, t, r, t.limit, t.points, KHALYKSOR_WALK_CRATE, r.slots.as_mut_ptr(), r.slots.len() as u64),
        Reader::Trc => |t, r| call!(khalyksor_read_trc_tag, t, r, t.limit, KHALYKSOR_WALK_CRATE),
        Reader::Text => |t, r| call!(khalyksor_read_string_tag, t, r, r.slots.as_mut_ptr(), r.slots.len() as u64),
        Reader::Chad => |t, r| call!(khalyksor_read_chad_tag, t, r),
        Reader::Sig => |t, r| call!(khalyksor_read_tech_tag, t, r),
        Reader::Dtim => |t, r| call!(khalyksor_read_date_time_tag, t, r),
        Reader::Meas => |t, r| call!(khalyksor_read_meas_tag, t, r),
        Reader::View => |t, r| call!(khalyksor_read_viewing_conditions, t, r),
        Reader::Xyz => |t, r| call!(khalyksor_read_xyz_tag, t, r),
        Reader::Cicp => |t, r| call!(khalyksor_read_cicp_tag, t, r),
    }
}
