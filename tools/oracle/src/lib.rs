//! moxcms's tag readers as a library: its own files, and what they need to compile without the rest of it.
//!
//! The modules named in the first list are moxcms's files, put beside this one by ../build.
#![allow(dead_code, unused_imports, unused_macros, unreachable_pub)]

mod cicp;
mod dat;
mod err;
mod helpers;
mod matan;
mod math;
mod matrix;
mod mlaf;
mod profile;
mod reader;
mod safe_math;
mod tag;
mod trc;
mod writer;

pub mod answer;
pub mod call;
pub mod called;
pub mod label;
mod stand_ins;

// moxcms's files find each other, and what they need from elsewhere, under the names of its own lib.rs.
extern crate self as num_traits;
extern crate self as pxfm;
pub use cicp::{CicpColorPrimaries, ColorPrimaries, MatrixCoefficients, TransferCharacteristics};
pub use dat::ColorDateTime;
pub use err::{CmsError, MalformedSize};
pub use math::rounding_div_ceil;
pub use matrix::*;
pub use profile::*;
pub use stand_ins::*;
pub use trc::{GammaLutInterpolate, ParametricCurve, ToneCurveEvaluator, ToneReprCurve, curve_from_gamma};
