//! Looks for answers of the Rust files that depart from C11 Annex F, clauses F.10.2.1 to
//! F.10.2.6 (acosh, asinh, atanh, cosh, sinh, tanh), F.10.3.1 (exp), F.10.3.3 (expm1), F.10.3.7
//! (log), F.10.3.9 (log1p) and F.10 (a NaN gives a NaN), or that have no number where the
//! function has one. The Rust files are called as they are, acosh too.

use crate::inputs::{Random, SEED};
use crate::libm;

/// What a result has to be.
enum Wanted {
    Nan,
    /// This value, a zero with its sign.
    Exactly(f64),
    /// A finite number other than zero, greater than the first and less than the second, where
    /// rounding may reach either.
    Between(f64, f64),
}

use Wanted::{Between, Exactly, Nan};

const INFINITY: f64 = f64::INFINITY;

/// The greatest f64 whose exponential is finite after rounding: 709.782712893383973096.
const LAST_FINITE: f64 = f64::from_bits(0x4086_2e42_fefa_39ef);

/// The least f64 whose exponential is not zero after rounding: -745.13321910194110842.
const FIRST_POSITIVE: f64 = f64::from_bits(0xc087_4910_d52d_3051);

/// The greatest f64 whose half exponential is finite after rounding, and with it sinh and cosh:
/// 710.475860073943863426.
const LAST_FINITE_HALF: f64 = f64::from_bits(0x4086_33ce_8fb9_f87d);

/// The greatest f32 whose exponential is finite after rounding: 88.7228317260742187.
const LAST_FINITE_SINGLE: f64 = f32::from_bits(0x42b1_7217) as f64;

fn expm1(x: f64) -> Wanted {
    expm1_up_to(x, LAST_FINITE, f64::MAX)
}

fn expm1f(x: f64) -> Wanted {
    expm1_up_to(x, LAST_FINITE_SINGLE, f32::MAX as f64)
}

fn expm1_up_to(x: f64, last_finite: f64, greatest: f64) -> Wanted {
    match x {
        _ if x.is_nan() => Nan,
        _ if x == 0.0 => Exactly(x),
        _ if x > last_finite => Exactly(INFINITY),
        _ if x == -INFINITY => Exactly(-1.0),
        _ if x > 0.0 => Between(0.0, greatest),
        _ => Between(-1.0, 0.0),
    }
}

fn exp(x: f64) -> Wanted {
    match x {
        _ if x.is_nan() => Nan,
        _ if x == 0.0 => Exactly(1.0),
        _ if x > LAST_FINITE => Exactly(INFINITY),
        _ if x < FIRST_POSITIVE => Exactly(0.0),
        _ if x > 0.0 => Between(1.0, f64::MAX),
        _ => Between(0.0, 1.0),
    }
}

/// For log1pf too: the logarithms of f32 lie between the same numbers.
fn log1p(x: f64) -> Wanted {
    match x {
        _ if x.is_nan() || x < -1.0 => Nan,
        _ if x == -1.0 => Exactly(-INFINITY),
        _ if x == 0.0 || x == INFINITY => Exactly(x),
        _ if x > 0.0 => Between(0.0, 710.0),
        _ => Between(-37.0, 0.0),
    }
}

fn log(x: f64) -> Wanted {
    match x {
        _ if x.is_nan() || x < 0.0 => Nan,
        _ if x == 0.0 => Exactly(-INFINITY),
        _ if x == 1.0 => Exactly(0.0),
        _ if x == INFINITY => Exactly(x),
        _ if x > 1.0 => Between(0.0, 710.0),
        _ => Between(-745.0, 0.0),
    }
}

/// A finite number other than zero of x's sign, not greater than `greatest` in size.
fn of_same_sign(x: f64, greatest: f64) -> Wanted {
    if x > 0.0 {
        Between(0.0, greatest)
    } else {
        Between(-greatest, 0.0)
    }
}

fn sinh(x: f64) -> Wanted {
    match x {
        _ if x.is_nan() => Nan,
        _ if x == 0.0 => Exactly(x),
        _ if x.abs() > LAST_FINITE_HALF => Exactly(INFINITY.copysign(x)),
        _ => of_same_sign(x, f64::MAX),
    }
}

fn cosh(x: f64) -> Wanted {
    match x {
        _ if x.is_nan() => Nan,
        _ if x == 0.0 => Exactly(1.0),
        _ if x.abs() > LAST_FINITE_HALF => Exactly(INFINITY),
        _ => Between(1.0, f64::MAX),
    }
}

fn tanh(x: f64) -> Wanted {
    match x {
        _ if x.is_nan() => Nan,
        _ if x == 0.0 => Exactly(x),
        _ if x.is_infinite() => Exactly(1.0f64.copysign(x)),
        _ => of_same_sign(x, 1.0),
    }
}

fn asinh(x: f64) -> Wanted {
    match x {
        _ if x.is_nan() => Nan,
        _ if x == 0.0 || x.is_infinite() => Exactly(x),
        _ => of_same_sign(x, 711.0),
    }
}

fn acosh(x: f64) -> Wanted {
    match x {
        _ if x.is_nan() || x < 1.0 => Nan,
        _ if x == 1.0 => Exactly(0.0),
        _ if x == INFINITY => Exactly(x),
        _ => Between(0.0, 711.0),
    }
}

fn atanh(x: f64) -> Wanted {
    match x {
        _ if x.is_nan() || x.abs() > 1.0 => Nan,
        _ if x == 0.0 => Exactly(x),
        _ if x.abs() == 1.0 => Exactly(INFINITY.copysign(x)),
        _ => of_same_sign(x, 19.0),
    }
}

fn holds(wanted: Wanted, result: f64) -> bool {
    match wanted {
        Nan => result.is_nan(),
        Exactly(value) => result.to_bits() == value.to_bits(),
        Between(low, high) => low <= result && result <= high && result != 0.0,
    }
}

/// Counts what it tries, and says where an answer departs.
#[derive(Default)]
struct Search {
    tried: u64,
    departures: u64,
}

impl Search {
    /// One argument and what the function gives. An f32 stands here as the f64 of the same value.
    fn hold(&mut self, name: &str, x: f64, result: f64, wanted: Wanted) {
        self.tried += 1;
        if !holds(wanted, result) {
            self.departures += 1;
            if self.departures <= 20 {
                println!("{name} of {x:e} ({:016x}) is {result:e}", x.to_bits());
            }
        }
    }

    fn report(&self, name: &str) {
        let Search { tried, departures } = self;
        println!("{name}: {tried} inputs, {departures} departures");
    }
}

/// Every high word there is, with the low words 0, 1, 0xffffffff and a random one; then random
/// NaNs of either sign.
fn double(name: &str, of: impl Fn(f64) -> f64, wanted: impl Fn(f64) -> Wanted) {
    let mut random = Random(SEED);
    let mut search = Search::default();
    let mut hold = |bits: u64| {
        let x = f64::from_bits(bits);
        search.hold(name, x, of(x), wanted(x));
    };
    for high in 0..1u64 << 32 {
        for low in [0, 1, 0xffff_ffff, random.next() >> 32] {
            hold(high << 32 | low);
        }
    }
    for _ in 0..1 << 27 {
        hold(random.next() | 0x7ff0_0000_0000_0001);
    }
    search.report(name);
}

/// Every f32 there is.
fn single(name: &str, of: impl Fn(f32) -> f32, wanted: impl Fn(f64) -> Wanted) {
    let mut search = Search::default();
    for bits in 0..=u32::MAX {
        let x = f32::from_bits(bits);
        search.hold(name, x as f64, of(x) as f64, wanted(x as f64));
    }
    search.report(name);
}

pub fn all(letters: &str) -> Result<(), String> {
    for letter in letters.chars() {
        match letter {
            'E' => double("expm1", libm::expm1, expm1),
            'L' => double("log1p", libm::log1p, log1p),
            'S' => double("sinh", libm::sinh, sinh),
            'C' => double("cosh", libm::cosh, cosh),
            'T' => double("tanh", libm::tanh, tanh),
            's' => double("asinh", libm::asinh, asinh),
            'c' => double("acosh", libm::acosh, acosh),
            't' => double("atanh", libm::atanh, atanh),
            'x' => double("exp", libm::exp, exp),
            'n' => double("log", libm::log, log),
            'F' => single("expm1f", libm::expm1f, expm1f),
            'G' => single("log1pf", libm::log1pf, log1p),
            _ => return Err(format!("no rule is written down for the letter {letter}")),
        }
    }
    Ok(())
}
