//! Stands in for moxcms's file of this name, as stand_ins.rs does for others.
pub(crate) fn is_curve_ascending<T>(_: &[T]) -> bool { unimplemented!() }
pub(crate) fn is_curve_linear16(_: &[u16]) -> bool { unimplemented!() }
