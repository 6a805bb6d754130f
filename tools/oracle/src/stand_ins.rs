//! What moxcms's readers name but never run: items of its other files, of num-traits and of pxfm, each with the
//! signature that makes the given files compile. Whatever has a body panics, so that a run would show.
use crate::{Matrix3d, TransferCharacteristics, Xyz, Xyzd};
use std::ops::{Add, Div, Mul, Rem, Sub};

// chromaticity.rs
#[derive(Clone, Copy, Debug, PartialEq)]
pub struct Chromaticity {
    pub x: f32,
    pub y: f32,
}

impl Chromaticity {
    pub const D50: Chromaticity = Chromaticity { x: 0., y: 0. };
    pub const D65: Chromaticity = Chromaticity { x: 0., y: 0. };
    pub fn to_xyz(&self) -> Xyz { unimplemented!() }
    pub fn to_xyzd(&self) -> Xyzd { unimplemented!() }
    pub fn to_scaled_xyz(&self) -> Xyz { unimplemented!() }
    pub fn to_scaled_xyzd(&self) -> Xyzd { unimplemented!() }
    pub fn to_xyyb(&self) -> XyY { unimplemented!() }
}

// xyy.rs
#[derive(Clone, Copy, Debug)]
pub struct XyY {
    pub x: f64,
    pub y: f64,
    pub yb: f64,
}

impl XyY {
    pub fn to_xyz(self) -> Xyz { unimplemented!() }
    pub fn to_xyzd(self) -> Xyzd { unimplemented!() }
}

pub trait XyYRepresentable {
    fn to_xyy(self) -> XyY;
}

// chad.rs
pub fn adapt_to_d50_d(_: Matrix3d, _: XyY) -> Matrix3d { unimplemented!() }

impl Matrix3d {
    pub fn bradford() -> Matrix3d { unimplemented!() }
}

// rgb.rs
#[derive(Clone, Copy, Debug)]
pub struct Rgb<T> {
    pub r: T,
    pub g: T,
    pub b: T,
}

impl<T> Rgb<T> {
    pub fn new(_: T, _: T, _: T) -> Rgb<T> { unimplemented!() }
}

// transform.rs
#[derive(Clone, Copy, Debug, PartialEq)]
pub enum Layout {
    Rgb, Rgba, Gray, GrayAlpha,
    Inks5, Inks6, Inks7, Inks8, Inks9, Inks10, Inks11, Inks12, Inks13, Inks14, Inks15,
}

pub mod transform {
    pub trait PointeeSizeExpressible {
        const NOT_FINITE_LINEAR_TABLE_SIZE: usize = 1;
        const FINITE: bool = true;
    }
    impl PointeeSizeExpressible for u8 {}
    impl PointeeSizeExpressible for u16 {}
}

// gamma.rs
pub mod gamma {
    pub fn bt1361_to_linear(_: f64) -> f64 { unimplemented!() }
    pub fn hlg_to_linear(_: f64) -> f64 { unimplemented!() }
    pub fn iec61966_to_linear(_: f64) -> f64 { unimplemented!() }
    pub fn log100_sqrt10_to_linear(_: f64) -> f64 { unimplemented!() }
    pub fn log100_to_linear(_: f64) -> f64 { unimplemented!() }
    pub fn pq_to_linear(_: f64) -> f64 { unimplemented!() }
    pub fn smpte240_to_linear(_: f64) -> f64 { unimplemented!() }
    pub fn smpte428_to_linear(_: f64) -> f64 { unimplemented!() }
}

impl TransferCharacteristics {
    pub fn linearize(self, _: f64) -> f64 { unimplemented!() }
    pub fn gamma(self, _: f64) -> f64 { unimplemented!() }
    pub(crate) fn make_linear_table<T, const N: usize, const BITS: usize>(&self) -> Box<[f32; N]> { unimplemented!() }
    pub(crate) fn make_gamma_table<T, const BUCKET: usize, const N: usize>(&self, _: usize) -> Box<[T; BUCKET]> {
        unimplemented!()
    }
}

// pxfm
pub fn dirty_powf(_: f32, _: f32) -> f32 { unimplemented!() }
pub fn f_powf(_: f32, _: f32) -> f32 { unimplemented!() }
pub fn f_pow(_: f64, _: f64) -> f64 { unimplemented!() }

// num-traits
pub trait Num:
    Sized
    + PartialEq
    + Add<Output = Self>
    + Sub<Output = Self>
    + Mul<Output = Self>
    + Div<Output = Self>
    + Rem<Output = Self>
{
}

pub trait MulAdd<A = Self, B = Self> {
    type Output;
    fn mul_add(self, a: A, b: B) -> Self::Output;
}

pub trait AsPrimitive<T: 'static + Copy>: 'static + Copy {
    fn as_(self) -> T;
}

macro_rules! number {
    ($($t:ty)*) => {$(
        impl Num for $t {}
        impl MulAdd for $t {
            type Output = $t;
            fn mul_add(self, _: $t, _: $t) -> $t { unimplemented!() }
        }
        as_primitive!($t => u8 u16 u32 i32 f32 f64 usize);
    )*};
}
macro_rules! as_primitive {
    ($from:ty => $($to:ty)*) => {$(
        impl AsPrimitive<$to> for $from {
            fn as_(self) -> $to { unimplemented!() }
        }
    )*};
}
number!(u8 u16 u32 i32 i64 usize f32 f64);
