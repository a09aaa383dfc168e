//! Measures where acosh.rs gives something else than NaN below 1, where C11 F.10.2.1 has NaN.

use crate::inputs::{Random, SEED};
use crate::libm::acosh;

/// What came back for a number of arguments below 1.
#[derive(Default)]
struct Count {
    tried: u64,
    minus_infinity: u64,
    negative: u64,
    positive: u64,
    /// The wrong answer's argument nearest to zero, and the answer.
    nearest: Option<(f64, f64)>,
}

impl Count {
    fn hold(&mut self, x: f64) {
        let result = acosh(x);
        self.tried += 1;
        if result.is_nan() {
            return;
        }
        match result {
            f64::NEG_INFINITY => self.minus_infinity += 1,
            _ if result < 0.0 => self.negative += 1,
            _ => self.positive += 1,
        }
        if self
            .nearest
            .is_none_or(|(nearest, _)| x.abs() < nearest.abs())
        {
            self.nearest = Some((x, result));
        }
    }

    fn report(&self, what: &str) {
        let Count {
            tried,
            minus_infinity,
            negative,
            positive,
            ..
        } = self;
        let wrong = minus_infinity + negative + positive;
        print!("{what}: {tried} tried, {wrong} not NaN");
        if let Some((x, result)) = self.nearest {
            print!(
                " ({minus_infinity} -infinity, {negative} other negative, {positive} zero or \
                 positive), least |x| at {x:?} ({:016x}) with {result:?}",
                x.to_bits()
            );
        }
        println!();
    }
}

/// Arguments whose patterns lie from `low` up to `high`, `count` of them at random.
fn sample(what: &str, random: &mut Random, count: u64, low: u64, high: u64) {
    let mut counted = Count::default();
    for _ in 0..count {
        counted.hold(f64::from_bits(low + random.next() % (high - low)));
    }
    counted.report(what);
}

fn negative_bits(x: f64) -> u64 {
    (-x).to_bits()
}

pub fn all() {
    let mut random = Random(SEED);
    for exponent in 1..=30 {
        let x = -((1u64 << exponent) as f64);
        println!("acosh(-2^{exponent}) = {:?}", acosh(x));
    }
    let mut whole = Count::default();
    for n in 2..1 << 26 {
        whole.hold(-(n as f64));
    }
    whole.report("whole numbers from -2^26 + 1 to -2");
    for exponent in 1..27u64 {
        let low = negative_bits((1u64 << exponent) as f64);
        let what = format!("from -2^{exponent} to -2^{}", exponent + 1);
        sample(&what, &mut random, 4_000_000, low, low + (1 << 52));
    }
    // Every f64 from -2^12.5 on, away from zero.
    let root = (1u64 << 25) as f64;
    let first = negative_bits(root.sqrt());
    let mut upward = Count::default();
    for bits in first..first + (1 << 26) {
        upward.hold(f64::from_bits(bits));
    }
    upward.report("the 2^26 numbers from -2^12.5 on");
    let two = negative_bits(2.0);
    let (zero, one) = (negative_bits(0.0), negative_bits(1.0));
    sample(
        "from -2^12.5 to -5700",
        &mut random,
        1 << 29,
        negative_bits(5700.0),
        first,
    );
    sample(
        "from -5700 to -2",
        &mut random,
        1 << 27,
        two,
        negative_bits(5700.0),
    );
    sample("from -2 to -1", &mut random, 1 << 24, one, two);
    sample("from -1 to -0", &mut random, 1 << 24, zero, one);
    sample("from +0 to 1", &mut random, 1 << 24, 0, 1.0f64.to_bits());
    let last = negative_bits((1u64 << 26) as f64);
    sample(
        "up to -2^26",
        &mut random,
        1 << 26,
        last,
        negative_bits(f64::INFINITY) + 1,
    );
}
