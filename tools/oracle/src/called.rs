//! moxcms's readers, each called and not inlined. Its own are private to it.
use crate::*;

macro_rules! called {
    ($($name:ident($entry:ty $(, $more:ident: $of:ty)*) -> $answer:ty;)*) => {
        $(#[inline(never)]
        pub fn $name(profile: &[u8], entry: $entry, size: usize $(, $more: $of)*) -> Result<$answer, CmsError> {
            ColorProfile::$name(profile, entry, size $(, $more)*)
        })*
    };
}
called! {
    read_lut_tag(u32, options: &ParsingOptions) -> Option<LutWarehouse>;
    read_trc_tag(usize, consumed: &mut usize, options: &ParsingOptions) -> Option<ToneReprCurve>;
    read_string_tag(usize) -> Option<ProfileText>;
    read_chad_tag(usize) -> Option<Matrix3d>;
    read_tech_tag(usize) -> Option<TechnologySignatures>;
    read_date_time_tag(usize) -> Option<ColorDateTime>;
    read_meas_tag(usize) -> Option<Measurement>;
    read_viewing_conditions(usize) -> Option<ViewingConditions>;
    read_xyz_tag(usize) -> Xyzd;
    read_cicp_tag(usize) -> Option<CicpProfile>;
}
