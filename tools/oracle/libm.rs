//! The files of libm 0.2.16, taken unchanged from the folder that the environment variable
//! `LIBM_MATH` names while this program is built, and what stands in for the parts of libm
//! that lie outside these files.

/// In libm: reads a value so that the compiler keeps the step that raises an exception flag.
/// The value itself is not used.
macro_rules! force_eval {
    ($value:expr) => {
        let _ = ::std::hint::black_box($value);
    };
}

/// In libm: takes another body on some machines (x87 for `exp`). Nothing here, so that the
/// body in the file is the one that runs.
macro_rules! select_implementation {
    ($($anything:tt)*) => {};
}

/// In libm: an entry of an array, without a test of the index in release builds.
macro_rules! i {
    ($array:expr, $index:expr) => {
        $array[$index]
    };
}

/// Each name is a file of libm, as published, in a module of its own.
macro_rules! files {
    ($($name:ident)*) => {
        $(mod $name {
            include!(concat!(env!("LIBM_MATH"), "/", stringify!($name), ".rs"));
        })*
    };
}

files! {
    acosh asinh atanh cosh exp expm1 expm1f expo2 k_expo2 log log1p log1pf scalbn sinh tanh
}

pub use self::{
    acosh::acosh, asinh::asinh, atanh::atanh, cosh::cosh, exp::exp, expm1::expm1, expm1f::expm1f,
    log::log, log1p::log1p, log1pf::log1pf, scalbn::scalbn, sinh::sinh, tanh::tanh,
};
use self::{expo2::expo2, k_expo2::k_expo2};

/// Stands in for libm's square root: Rust's own, which is the nearest f64 to the exact root.
fn sqrt(x: f64) -> f64 {
    x.sqrt()
}

/// In libm: the f64 of two words.
fn combine_words(high: u32, low: u32) -> f64 {
    f64::from_bits((high as u64) << 32 | low as u64)
}

/// Stands in for libm's `generic` folder: the body that `scalbn.rs` hands its arguments to.
mod generic {
    pub trait Scale {
        fn scale(self, n: i32) -> Self;
    }

    pub fn scalbn<F: Scale>(x: F, n: i32) -> F {
        x.scale(n)
    }

    impl Scale for f64 {
        /// x × 2^n, rounded once to nearest even, with whole numbers only: |x| is split into
        /// m × 2^e with 2^52 <= m < 2^53, n is added to e, and if the result is below the
        /// normal range the low bits of m go, with one rounding.
        fn scale(self, n: i32) -> f64 {
            if self == 0.0 || !self.is_finite() {
                return self;
            }
            let sign = self.to_bits() & 1 << 63;
            let fraction = self.to_bits() & ((1 << 52) - 1);
            let exponent = (self.to_bits() >> 52 & 0x7ff) as i64;
            let (mut m, mut e) = match exponent {
                0 => (fraction, -1074),
                _ => (fraction | 1 << 52, exponent - 1075),
            };
            while m < 1 << 52 {
                m <<= 1;
                e -= 1;
            }
            e += n as i64;
            let magnitude = if e > 971 {
                f64::INFINITY.to_bits()
            } else if e >= -1074 {
                // The leading bit of m adds the missing 1 to the exponent.
                (((e + 1074) as u64) << 52) + m
            } else {
                without_low_bits(m, -1074 - e)
            };
            f64::from_bits(sign | magnitude)
        }
    }

    /// m ÷ 2^count to the nearest whole number, a half to the even one.
    fn without_low_bits(m: u64, count: i64) -> u64 {
        if count > 54 {
            return 0;
        }
        let rest = m & ((1 << count) - 1);
        let half = 1 << (count - 1);
        let quotient = m >> count;
        if rest > half || (rest == half && quotient % 2 == 1) {
            quotient + 1
        } else {
            quotient
        }
    }

    impl Scale for f32 {
        /// Beyond 2^600 and below 2^-600 nothing changes any more; between them the product is
        /// exact in f64, and the cast rounds it once.
        fn scale(self, n: i32) -> f32 {
            (self as f64).scale(n.clamp(-600, 600)) as f32
        }
    }
}
