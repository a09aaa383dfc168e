//! Prints the results of the twelve functions at a few arguments, special values among them. A line
//! has the function's name, the bits of the argument and of the result, and both in decimal. A NaN
//! is one value: as a result it is printed as 7ff8000000000000 or 7fc00000, whatever its bits.

mod wumelisorn;

use std::io::{self, BufWriter, Write};

type Double = extern "C" fn(f64) -> f64;
type Single = extern "C" fn(f32) -> f32;

const DOUBLES: [(&str, Double); 10] = [
    ("expm1", wumelisorn::expm1),
    ("log1p", wumelisorn::log1p),
    ("exp", wumelisorn::exp),
    ("log", wumelisorn::log),
    ("sinh", wumelisorn::sinh),
    ("cosh", wumelisorn::cosh),
    ("tanh", wumelisorn::tanh),
    ("asinh", wumelisorn::asinh),
    ("acosh", wumelisorn::acosh),
    ("atanh", wumelisorn::atanh),
];

const SINGLES: [(&str, Single); 2] = [
    ("expm1f", wumelisorn::expm1f),
    ("log1pf", wumelisorn::log1pf),
];

const DOUBLE_ARGUMENTS: [u64; 19] = [
    0x0000_0000_0000_0000, // 0
    0x8000_0000_0000_0000, // -0
    0x0000_0000_0000_0001, // the least number above 0
    0x3eb0_0000_0000_0000, // 2^-20
    0xbeb0_0000_0000_0000, // -2^-20
    0x3fe0_0000_0000_0000, // 0.5
    0xbfe0_0000_0000_0000, // -0.5
    0x3ff0_0000_0000_0000, // 1
    0xbff0_0000_0000_0000, // -1
    0x4000_0000_0000_0000, // 2
    0xc000_0000_0000_0000, // -2
    0x4090_0000_0000_0000, // 1024
    0xc090_0000_0000_0000, // -1024
    0x7fef_ffff_ffff_ffff, // the greatest finite number
    0x7ff0_0000_0000_0000, // infinity
    0xfff0_0000_0000_0000, // -infinity
    0x7ff8_0000_0000_0000, // a NaN
    0xfff8_0000_dead_beef, // a NaN with a sign and a payload
    0x7ff0_0000_0000_0001, // a signalling NaN
];

const SINGLE_ARGUMENTS: [u32; 19] = [
    0x0000_0000, // 0
    0x8000_0000, // -0
    0x0000_0001, // the least number above 0
    0x3580_0000, // 2^-20
    0xb580_0000, // -2^-20
    0x3f00_0000, // 0.5
    0xbf00_0000, // -0.5
    0x3f80_0000, // 1
    0xbf80_0000, // -1
    0x4000_0000, // 2
    0xc000_0000, // -2
    0x4480_0000, // 1024
    0xc480_0000, // -1024
    0x7f7f_ffff, // the greatest finite number
    0x7f80_0000, // infinity
    0xff80_0000, // -infinity
    0x7fc0_0000, // a NaN
    0xffc0_beef, // a NaN with a sign and a payload
    0x7f80_0001, // a signalling NaN
];

fn main() -> io::Result<()> {
    let mut out = BufWriter::new(io::stdout().lock());
    for (name, function) in DOUBLES {
        for argument in DOUBLE_ARGUMENTS {
            let x = f64::from_bits(argument);
            let result = function(x);
            let bits = if result.is_nan() {
                0x7ff8_0000_0000_0000
            } else {
                result.to_bits()
            };
            let (x, result) = (decimal(x, 16), decimal(result, 16));
            writeln!(out, "{name} {argument:016x} {bits:016x} {x} {result}")?;
        }
    }
    for (name, function) in SINGLES {
        for argument in SINGLE_ARGUMENTS {
            let x = f32::from_bits(argument);
            let result = function(x);
            let bits = if result.is_nan() {
                0x7fc0_0000
            } else {
                result.to_bits()
            };
            let (x, result) = (decimal(x.into(), 8), decimal(result.into(), 8));
            writeln!(out, "{name} {argument:08x} {bits:08x} {x} {result}")?;
        }
    }
    out.flush()
}

/// A number in decimal, as C prints it by `%.*e`: the exponent has a sign and two digits or more.
fn decimal(x: f64, digits: usize) -> String {
    if x.is_nan() {
        return "nan".into();
    }
    let text = format!("{x:.digits$e}");
    match text.split_once('e') {
        Some((number, exponent)) => match exponent.strip_prefix('-') {
            Some(exponent) => format!("{number}e-{exponent:0>2}"),
            None => format!("{number}e+{exponent:0>2}"),
        },
        None => text,
    }
}
