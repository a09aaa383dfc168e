//! The inputs of the stored run, for all twelve functions, and lines that are not well formed.

use crate::libm;
use crate::line::LETTERS;

/// Where the random values start.
pub const SEED: u64 = 20261118;

/// A list of bit patterns without repetitions, in the order in which they came. `sign` is the
/// pattern's top bit: that of an f64 or that of an f32.
struct Patterns {
    list: Vec<u64>,
    sign: u64,
}

impl Patterns {
    /// For an f64, with the special patterns in it.
    fn double() -> Patterns {
        let mut patterns = Patterns {
            list: Vec::new(),
            sign: 1 << 63,
        };
        special_double(&mut patterns);
        patterns
    }

    /// For an f32, with the special patterns in it.
    fn single() -> Patterns {
        let mut patterns = Patterns {
            list: Vec::new(),
            sign: 1 << 31,
        };
        special_single(&mut patterns);
        patterns
    }

    fn one(&mut self, bits: u64) {
        if !self.list.contains(&bits) {
            self.list.push(bits);
        }
    }

    /// Single inputs that the documents name.
    fn named(&mut self, list: &[u64]) {
        for &bits in list {
            self.one(bits);
        }
    }

    fn both_signs(&mut self, magnitude: u64) {
        self.one(magnitude);
        self.one(magnitude | self.sign);
    }

    /// A value, its neighbour below and its neighbour above.
    fn around(&mut self, magnitude: u64) {
        for bits in magnitude - 1..=magnitude + 1 {
            self.both_signs(bits);
        }
    }

    /// An edge "high word below `high`", which is also "at least `high`".
    fn edge_below(&mut self, high: u64) {
        self.around(high << 32);
    }

    /// An edge "high word up to `high`", which is also "above `high`": the first values with
    /// that high word, the last one, and the first values after it.
    fn edge_up_to(&mut self, high: u64) {
        self.around(high << 32);
        self.around((high + 1) << 32);
    }

    /// The last magnitude before a change and the first after it: `after` is false at the
    /// pattern `low`, true at `high`, and changes once between them.
    fn change(&mut self, low: u64, high: u64, after: impl Fn(u64) -> bool) {
        let (mut low, mut high) = (low, high);
        assert!(!after(low) && after(high));
        while high - low > 1 {
            let middle = low + (high - low) / 2;
            if after(middle) {
                high = middle;
            } else {
                low = middle;
            }
        }
        self.both_signs(low);
        self.both_signs(high);
    }

    /// Values above zero between two magnitudes, the first included.
    fn above_zero(&mut self, random: &mut Random, count: usize, low: u64, high: u64) {
        for _ in 0..count {
            self.one(low + random.next() % (high - low));
        }
    }

    /// Values below zero between two magnitudes, the first included.
    fn below_zero(&mut self, random: &mut Random, count: usize, low: u64, high: u64) {
        for _ in 0..count {
            self.one((low + random.next() % (high - low)) | self.sign);
        }
    }

    fn random_both(&mut self, random: &mut Random, count: usize, low: u64, high: u64) {
        self.above_zero(random, count, low, high);
        self.below_zero(random, count, low, high);
    }

    /// Values of either sign in each of the bands that lie between neighbouring edges.
    fn bands(&mut self, random: &mut Random, count: usize, edges: &[u64]) {
        for pair in edges.windows(2) {
            self.random_both(random, count, pair[0], pair[1]);
        }
    }
}

/// The generator splitmix64.
pub struct Random(pub u64);

impl Random {
    pub fn next(&mut self) -> u64 {
        self.0 = self.0.wrapping_add(0x9e37_79b9_7f4a_7c15);
        let mut z = self.0;
        z = (z ^ z >> 30).wrapping_mul(0xbf58_476d_1ce4_e5b9);
        z = (z ^ z >> 27).wrapping_mul(0x94d0_49bb_1331_11eb);
        z ^ z >> 31
    }
}

/// Zeros, subnormals, the ends of the normal range, infinities, NaNs, ones and powers of two.
fn special_double(patterns: &mut Patterns) {
    for magnitude in [
        0x0000_0000_0000_0000, // zero
        0x0000_0000_0000_0001, // least subnormal
        0x0000_0000_ffff_ffff,
        0x0000_0001_0000_0000,
        0x0008_0000_0000_0000,
        0x000f_ffff_ffff_ffff, // greatest subnormal
        0x0010_0000_0000_0000, // least normal
        0x3ff0_0000_0000_0000, // one
        0x7fef_ffff_ffff_ffff, // greatest finite
        0x7ff0_0000_0000_0000, // infinity
        0x7ff0_0000_0000_0001, // signalling NaNs
        0x7ff4_0000_0000_0000,
        0x7ff7_ffff_ffff_ffff,
        0x7ff8_0000_0000_0000, // quiet NaNs
        0x7ff8_0000_dead_beef,
        0x7fff_ffff_ffff_ffff,
    ] {
        patterns.both_signs(magnitude);
    }
    for exponent in [-1000, -60, -20, -1, 1, 10, 60, 1023] {
        patterns.both_signs(power_of_two(exponent));
    }
}

/// The same for f32.
fn special_single(patterns: &mut Patterns) {
    for magnitude in [
        0x0000_0000, // zero
        0x0000_0001, // least subnormal
        0x0000_ffff,
        0x0001_0000,
        0x0040_0000,
        0x007f_ffff, // greatest subnormal
        0x0080_0000, // least normal
        0x3f80_0000, // one
        0x7f7f_ffff, // greatest finite
        0x7f80_0000, // infinity
        0x7f80_0001, // signalling NaNs
        0x7fa0_0000,
        0x7fbf_ffff,
        0x7fc0_0000, // quiet NaNs
        0x7fc0_beef,
        0x7fff_ffff,
    ] {
        patterns.both_signs(magnitude);
    }
    for exponent in [-100, -60, -20, -1, 1, 10, 60, 127] {
        patterns.both_signs(((exponent + 127) as u64) << 23);
    }
}

/// The pattern of 2^exponent as an f64.
fn power_of_two(exponent: i64) -> u64 {
    ((exponent + 1023) as u64) << 52
}

/// |x| ÷ ln 2 to the nearest whole number, as exp and expm1 work it out.
fn halvings(magnitude: u64) -> i64 {
    let one_over_ln2 = f64::from_bits(0x3ff7_1547_652b_82fe);
    (one_over_ln2 * f64::from_bits(magnitude) + 0.5) as i64
}

fn halvings_change(patterns: &mut Patterns, counts: &[i64]) {
    for &count in counts {
        let (low, high) = (1.0f64.to_bits(), 800.0f64.to_bits());
        patterns.change(low, high, |bits| halvings(bits) >= count);
    }
}

fn expm1(random: &mut Random) -> Patterns {
    let mut patterns = Patterns::double();
    patterns.edge_below(0x3c90_0000); // below: x itself
    patterns.edge_up_to(0x3fd6_2e42); // up to here k = 0
    patterns.edge_below(0x3ff0_a2b2); // below: k = 1 or -1
    patterns.edge_below(0x4043_687a); // from here on -1 for a negative x
    patterns.around(0x4086_2e42_fefa_39ef); // above: infinity
    halvings_change(&mut patterns, &[2, 3, 19, 20, 21, 56, 57, 58, 1023, 1024]);
    // With k = 1 the last steps differ on the two sides of r = -1/4.
    let ln2 = (
        f64::from_bits(0x3fe6_2e42_fee0_0000),
        f64::from_bits(0x3dea_39ef_3579_3c76),
    );
    let (low, high) = (0.4f64.to_bits(), 0.5f64.to_bits());
    patterns.change(low, high, |bits| {
        f64::from_bits(bits) - ln2.0 - ln2.1 >= -0.25
    });
    patterns.random_both(random, 2, 0x0010_0000_0000_0000, 0x3c90_0000_0000_0000);
    patterns.random_both(random, 4, 0x3c90_0000_0000_0000, 0x3fd6_2e43_0000_0000);
    patterns.random_both(random, 4, 0x3fb0_0000_0000_0000, 0x3fd6_2e43_0000_0000);
    patterns.random_both(random, 4, 0x3fd6_2e43_0000_0000, 0x3ff0_a2b2_0000_0000);
    patterns.random_both(random, 4, 0x3ff0_a2b2_0000_0000, 13.5f64.to_bits());
    patterns.random_both(random, 4, 13.5f64.to_bits(), 0x4043_687a_0000_0000);
    patterns.above_zero(random, 6, 40.0f64.to_bits(), 709.4f64.to_bits());
    patterns.above_zero(random, 4, 709.5f64.to_bits(), 0x4086_2e42_fefa_39ef);
    patterns.random_both(random, 2, 710.0f64.to_bits(), 0x7ff0_0000_0000_0000);
    patterns.named(&[
        (-40.0f64).to_bits(),
        710.0f64.to_bits(),
        709.75f64.to_bits(),
    ]);
    patterns.named(&[0x3fd6_4272_cdb0_52af]);
    patterns
}

/// The exponent k that log and log1p split off: u = 2^k × m with the high word of m from
/// 0x3fe6a09e to 0x3ff6a09d.
fn split_off(u: f64) -> i64 {
    let high = (u.to_bits() >> 32) as i64;
    (high - 0x3fe6_a09e).div_euclid(1 << 20)
}

fn log1p(random: &mut Random) -> Patterns {
    let mut patterns = Patterns::double();
    patterns.edge_below(0x3ca0_0000); // below: x itself
    patterns.edge_up_to(0x3fd2_bec4); // negative side: up to here k = 0
    patterns.edge_below(0x3fda_827a); // positive side: below here k = 0
    patterns.edge_up_to(0x3ff0_0000); // -1, and below it NaN
    let (low, high) = (1.0f64.to_bits(), f64::MAX.to_bits());
    for k in [2, 3, 52, 53, 54, 55, 1023, 1024] {
        patterns.change(low, high, |bits| split_off(1.0 + f64::from_bits(bits)) >= k);
    }
    let (low, high) = (0.25f64.to_bits(), 1.0f64.to_bits() - 1);
    for k in [-2, -3, -10, -52, -53] {
        patterns.change(low, high, |bits| split_off(1.0 - f64::from_bits(bits)) <= k);
    }
    patterns.random_both(random, 2, 0x0010_0000_0000_0000, 0x3ca0_0000_0000_0000);
    patterns.above_zero(random, 6, 0x3ca0_0000_0000_0000, 0x3fda_827a_0000_0000);
    patterns.above_zero(random, 6, 0x3fb0_0000_0000_0000, 0x3fda_827a_0000_0000);
    patterns.below_zero(random, 6, 0x3ca0_0000_0000_0000, 0x3fd2_bec5_0000_0000);
    patterns.below_zero(random, 6, 0x3fb0_0000_0000_0000, 0x3fd2_bec5_0000_0000);
    patterns.below_zero(random, 8, 0x3fd2_bec5_0000_0000, 0x3ff0_0000_0000_0000);
    patterns.below_zero(random, 3, 0x3ff0_0000_0000_0001, 0x7ff0_0000_0000_0000);
    patterns.above_zero(random, 6, 0x3fda_827a_0000_0000, 0x4010_0000_0000_0000);
    patterns.above_zero(random, 8, 0x4010_0000_0000_0000, 0x4350_0000_0000_0000);
    patterns.above_zero(random, 4, 0x4350_0000_0000_0000, 0x7ff0_0000_0000_0000);
    patterns.named(&[0x3ffd_413c_0000_0000, 0x4342_eb9f_54a0_22da]);
    patterns.named(&[0xbfd2_f191_ade2_9b2a]);
    patterns
}

fn exp(random: &mut Random) -> Patterns {
    let mut patterns = Patterns::double();
    patterns.edge_up_to(0x3e30_0000); // up to here 1 + x
    patterns.edge_up_to(0x3fd6_2e42); // up to here k = 0
    patterns.edge_below(0x3ff0_a2b2); // below: k = 1 or -1
    patterns.edge_below(0x4086_232b); // from here on the ends are tested
    patterns.around(0x4086_2e42_fefa_39ef); // above: infinity
    patterns.around(0x4086_232b_dd7a_bcd2); // below its negative the result is subnormal
    patterns.around(0x4087_4910_d52d_3051); // below its negative: zero
    halvings_change(&mut patterns, &[2, 3, 1021, 1022, 1023, 1024, 1074, 1075]);
    patterns.random_both(random, 2, 0x0010_0000_0000_0000, 0x3e30_0001_0000_0000);
    patterns.random_both(random, 4, 0x3e30_0001_0000_0000, 0x3fd6_2e43_0000_0000);
    patterns.random_both(random, 4, 0x3fd6_2e43_0000_0000, 0x3ff0_a2b2_0000_0000);
    patterns.random_both(random, 6, 0x3ff0_a2b2_0000_0000, 0x4086_232b_0000_0000);
    patterns.above_zero(random, 4, 0x4086_232b_0000_0000, 0x4086_2e42_fefa_39ef);
    patterns.below_zero(random, 10, 0x4086_232b_dd7a_bcd2, 0x4087_4910_d52d_3051);
    patterns.random_both(random, 2, 0x4087_4910_d52d_3052, 0x7ff0_0000_0000_0000);
    patterns.named(&[0.25f64.to_bits(), (-720.0f64).to_bits()]);
    patterns.named(&[0x3fd5_6abd_e3fb_bd7b, 0xc086_b092_c894_3803]);
    patterns.named(&[0xc029_a539_9ae2_90e5]);
    patterns
}

fn log(random: &mut Random) -> Patterns {
    let mut patterns = Patterns::double();
    patterns.edge_below(0x0010_0000); // below: subnormal
    patterns.edge_up_to(0x3ff0_0000); // 1 itself gives +0
    for k in [-1021, -1, 0, 1, 2, 53, 54, 1023, 1024] {
        let edge = ((0x3fe6_a09e + (k << 20)) as u64) << 32;
        for bits in edge - 1..=edge + 1 {
            patterns.one(bits);
        }
    }
    // The same edge for subnormals, which are multiplied by 2^54 first.
    for (k, low, high) in [(-1022, 1, 1 << 52), (-1023, 1, 1 << 52), (-1072, 1, 8)] {
        let two_54 = f64::from_bits(0x4350_0000_0000_0000);
        patterns.change(low, high, |bits| {
            split_off(f64::from_bits(bits) * two_54) - 54 >= k
        });
    }
    patterns.above_zero(random, 8, 1, 0x0010_0000_0000_0000);
    patterns.above_zero(random, 8, 0x0010_0000_0000_0000, 0x3fe6_a09e_0000_0000);
    patterns.above_zero(random, 6, 0x3fe6_a09e_0000_0000, 0x3ff0_0000_0000_0000);
    patterns.above_zero(random, 6, 0x3ff0_0000_0000_0000, 0x3ff6_a09e_0000_0000);
    patterns.above_zero(random, 8, 0x3ff6_a09e_0000_0000, 0x7ff0_0000_0000_0000);
    patterns.below_zero(random, 4, 1, 0x7ff0_0000_0000_0000);
    patterns.named(&[0x3800_0000_0000_0000, 0x4342_eb9f_54a0_22da]);
    patterns.named(&[0x3fe6_95d0_5c6b_5687]);
    patterns
}

/// The greatest f64 at which sinh and cosh are finite.
const LAST_FINITE_HALF: u64 = 0x4086_33ce_8fb9_f87d;

const LEAST_NORMAL: u64 = 0x0010_0000_0000_0000;

const INFINITY: u64 = 0x7ff0_0000_0000_0000;

fn sinh(random: &mut Random) -> Patterns {
    let mut patterns = Patterns::double();
    patterns.edge_below(0x3e50_0000); // below: x itself
    patterns.edge_below(0x3ff0_0000); // the two forms with expm1
    patterns.edge_below(0x4086_2e42); // from here on expo2
    patterns.around(LAST_FINITE_HALF); // above: infinity
    // where expm1 changes its count of halvings
    patterns.edge_up_to(0x3fd6_2e42);
    halvings_change(&mut patterns, &[2, 20, 57, 1023]);
    let edges = [
        LEAST_NORMAL,
        0x3e50_0000_0000_0000,
        0x3fb0_0000_0000_0000,
        0x3ff0_0000_0000_0000,
        22.0f64.to_bits(),
        0x4086_2e42_0000_0000,
        LAST_FINITE_HALF,
        INFINITY,
    ];
    patterns.bands(random, 3, &edges);
    patterns.random_both(random, 4, 0x3fd0_0000_0000_0000, 0x4000_0000_0000_0000);
    patterns.both_signs(power_of_two(-30));
    patterns.both_signs(800.0f64.to_bits());
    patterns.both_signs(710.0f64.to_bits());
    patterns.named(&[18.5f64.to_bits(), 0.1f64.to_bits(), 0x3fe6_42a0_d34b_6042]);
    patterns
}

fn cosh(random: &mut Random) -> Patterns {
    let mut patterns = Patterns::double();
    patterns.edge_below(0x3e50_0000); // below: 1
    patterns.edge_below(0x3fe6_2e42); // below: expm1
    patterns.edge_below(0x4086_2e42); // below: exp; from here on k_expo2
    patterns.around(LAST_FINITE_HALF); // above: infinity
    // where expm1 and exp change their count of halvings
    patterns.edge_up_to(0x3fd6_2e42);
    halvings_change(&mut patterns, &[2, 3, 1023]);
    let edges = [
        LEAST_NORMAL,
        0x3e50_0000_0000_0000,
        0x3fb0_0000_0000_0000,
        0x3fe6_2e42_0000_0000,
        22.0f64.to_bits(),
        0x4086_2e42_0000_0000,
        LAST_FINITE_HALF,
        INFINITY,
    ];
    patterns.bands(random, 3, &edges);
    patterns.random_both(random, 4, 0x3fd0_0000_0000_0000, 0x4000_0000_0000_0000);
    patterns.both_signs(power_of_two(-30));
    patterns.both_signs(800.0f64.to_bits());
    patterns.both_signs(710.0f64.to_bits());
    patterns.named(&[18.5f64.to_bits(), 89.0f64.to_bits(), 0x4003_6a1c_114d_a729]);
    patterns
}

fn tanh(random: &mut Random) -> Patterns {
    let mut patterns = Patterns::double();
    patterns.edge_below(0x0010_0000); // below: subnormal, x itself
    patterns.edge_up_to(0x3fd0_58ae); // up to here expm1 of -2 |x|
    patterns.edge_up_to(0x3fe1_93ea); // the two forms with expm1 of 2 |x|
    patterns.edge_up_to(0x4034_0000); // above: 1
    // half of the edges of expm1
    patterns.edge_below(0x3c80_0000);
    patterns.edge_up_to(0x3fc6_2e42);
    patterns.edge_below(0x3fe0_a2b2);
    patterns.edge_below(0x4033_687a);
    let edges = [
        LEAST_NORMAL,
        0x3c80_0000_0000_0000,
        0x3fb0_0000_0000_0000,
        0x3fd0_58af_0000_0000,
        0x3fe1_93eb_0000_0000,
        2.0f64.to_bits(),
        0x4034_0001_0000_0000,
        INFINITY,
    ];
    patterns.bands(random, 3, &edges);
    patterns.random_both(random, 4, 0.1f64.to_bits(), 0x3fd0_58af_0000_0000);
    patterns.both_signs(800.0f64.to_bits());
    patterns.named(&[0x3fcc_f615_ef61_12cb, 0x3fce_12fb_f558_90a3]);
    patterns
}

fn asinh(random: &mut Random) -> Patterns {
    let mut patterns = Patterns::double();
    for exponent in [-26, 1, 26] {
        patterns.around(power_of_two(exponent));
    }
    patterns.around(power_of_two(511)); // the square is about the greatest f64
    let edges = [
        LEAST_NORMAL,
        power_of_two(-26),
        power_of_two(-3),
        power_of_two(-1),
        power_of_two(1),
        power_of_two(26),
        INFINITY,
    ];
    patterns.bands(random, 5, &edges);
    patterns.named(&[
        0.1f64.to_bits(),
        0x3fd0_2657_e1b5_edab,
        0x3fe0_a9c4_e25b_2700,
    ]);
    patterns
}

fn acosh(random: &mut Random) -> Patterns {
    let mut patterns = Patterns::double();
    for exponent in [0, 1, 26] {
        patterns.around(power_of_two(exponent));
    }
    patterns.around(1.125f64.to_bits());
    patterns.above_zero(random, 4, power_of_two(0), power_of_two(0) + 1024);
    patterns.above_zero(random, 10, power_of_two(0), 1.125f64.to_bits());
    patterns.above_zero(random, 10, 1.125f64.to_bits(), power_of_two(1));
    patterns.above_zero(random, 16, power_of_two(1), power_of_two(26));
    patterns.above_zero(random, 8, power_of_two(26), INFINITY);
    patterns.named(&[0x3ff0_007f_ddb3_7180]);
    acosh_below_one(&mut patterns, random);
    patterns
}

/// Arguments outside the domain, where the stored answer is NaN. About half of these are such that
/// the Rust gives something else.
fn acosh_below_one(patterns: &mut Patterns, random: &mut Random) {
    for exponent in 2..=27 {
        patterns.one(power_of_two(exponent) | patterns.sign);
    }
    patterns.named(&[
        0.5f64.to_bits(),
        (-6540.0f64).to_bits(),
        (-29484912.50125298f64).to_bits(),
        LEAST_WRONG,
        LEAST_WRONG - 1,
        0xc0b6_a09e_68fe_7799, // no power of two, and -infinity
        0xc100_0003_44ac_d23d,
        0xc182_ab21_74b8_0c49,
    ]);
    patterns.above_zero(random, 3, LEAST_NORMAL, power_of_two(0));
    patterns.below_zero(random, 3, LEAST_NORMAL, power_of_two(1));
    patterns.below_zero(random, 6, power_of_two(1), LEAST_WRONG & !patterns.sign);
    patterns.below_zero(random, 6, power_of_two(13), power_of_two(26));
    patterns.below_zero(random, 3, power_of_two(26), INFINITY);
    // Random ones that the Rust answers with a number or an infinity, in every binade.
    for exponent in 12..26 {
        let low = power_of_two(exponent) | patterns.sign;
        let wrong = std::iter::repeat_with(|| low + random.next() % (1 << 52))
            .filter(|&bits| !libm::acosh(f64::from_bits(bits)).is_nan());
        wrong.take(3).for_each(|bits| patterns.one(bits));
    }
}

/// The f64 below 1 nearest to zero at which acosh of the Rust is not NaN: -5792.618780651342.
const LEAST_WRONG: u64 = 0xc0b6_a09e_6868_a4e9;

fn atanh(random: &mut Random) -> Patterns {
    let mut patterns = Patterns::double();
    for exponent in [-32, -1, 0] {
        patterns.around(power_of_two(exponent));
    }
    let edges = [
        LEAST_NORMAL,
        power_of_two(-32),
        power_of_two(-3),
        power_of_two(-1),
        power_of_two(0),
        INFINITY,
    ];
    patterns.bands(random, 5, &edges);
    patterns.random_both(random, 3, power_of_two(0) - 1024, power_of_two(0));
    patterns.random_both(random, 4, 0.16f64.to_bits(), 0.18f64.to_bits()); // (1 + x) / (1 - x) near √2
    patterns.named(&[0.1f64.to_bits(), 0x3fdc_4428_708d_bb8b]);
    patterns
}

/// |x| ÷ ln 2 to the nearest whole number, as expm1f works it out.
fn halvings_single(magnitude: u64) -> i64 {
    let one_over_ln2 = f32::from_bits(0x3fb8_aa3b);
    (one_over_ln2 * f32::from_bits(magnitude as u32) + 0.5) as i64
}

fn bits_single(x: f32) -> u64 {
    x.to_bits() as u64
}

fn expm1f(random: &mut Random) -> Patterns {
    let mut patterns = Patterns::single();
    patterns.around(0x3300_0000); // below: x itself
    patterns.around(0x3eb1_7218); // up to here k = 0
    patterns.around(0x3f85_1592); // below: k = 1 or -1
    patterns.around(0x4195_b844); // from here on -1 for a negative x
    patterns.around(0x42b1_7217); // above: infinity
    for count in [2, 3, 22, 23, 24, 26, 56, 57, 58, 127, 128] {
        let (low, high) = (bits_single(1.0), bits_single(89.0));
        patterns.change(low, high, |bits| halvings_single(bits) >= count);
    }
    // With k = 1 the last steps differ on the two sides of r = -1/4.
    let ln2 = (f32::from_bits(0x3f31_7180), f32::from_bits(0x3717_f7d1));
    patterns.change(bits_single(0.4), bits_single(0.5), |bits| {
        f32::from_bits(bits as u32) - ln2.0 - ln2.1 >= -0.25
    });
    let edges = [
        0x0080_0000,
        0x3300_0000,
        0x3d80_0000,
        0x3eb1_7219,
        0x3f85_1592,
        bits_single(15.6),
        0x4195_b844,
        bits_single(39.0),
        bits_single(88.3),
        0x42b1_7218,
        0x7f80_0000,
    ];
    patterns.bands(random, 3, &edges);
    patterns.named(&[bits_single(-20.0), 0x3eb9_c703]);
    patterns
}

/// The exponent that log1pf splits off.
fn split_off_single(u: f32) -> i64 {
    (u.to_bits() as i64 - 0x3f35_04f3).div_euclid(1 << 23)
}

fn log1pf(random: &mut Random) -> Patterns {
    let mut patterns = Patterns::single();
    patterns.around(0x3380_0000); // below: x itself
    patterns.around(0x3e95_f619); // negative side: up to here k = 0
    patterns.around(0x3ed4_13d0); // positive side: below here k = 0
    patterns.around(0x3f80_0000); // -1, and below it NaN
    let single = |bits: u64| f32::from_bits(bits as u32);
    for k in [2, 3, 23, 24, 25, 26, 127, 128] {
        let (low, high) = (bits_single(1.0), bits_single(f32::MAX));
        patterns.change(low, high, |bits| split_off_single(1.0 + single(bits)) >= k);
    }
    for k in [-2, -3, -10, -23, -24] {
        let (low, high) = (bits_single(0.25), bits_single(1.0) - 1);
        patterns.change(low, high, |bits| split_off_single(1.0 - single(bits)) <= k);
    }
    patterns.random_both(random, 2, 0x0080_0000, 0x3380_0000);
    patterns.above_zero(random, 4, 0x3380_0000, 0x3ed4_13d0);
    patterns.above_zero(random, 6, 0x3d80_0000, 0x3ed4_13d0);
    patterns.below_zero(random, 4, 0x3380_0000, 0x3e95_f61a);
    patterns.below_zero(random, 6, 0x3d80_0000, 0x3e95_f61a);
    patterns.below_zero(random, 8, 0x3e95_f61a, 0x3f80_0000);
    patterns.below_zero(random, 3, 0x3f80_0001, 0x7f80_0000);
    patterns.above_zero(random, 6, 0x3ed4_13d0, 0x4080_0000);
    patterns.above_zero(random, 8, 0x4080_0000, 0x4c80_0000);
    patterns.above_zero(random, 4, 0x4c80_0000, 0x7f80_0000);
    patterns.named(&[0x3de7_dbf0, 0x3ecf_9864]);
    patterns
}

/// Lines with one thing wrong, most of them made from a well-formed line.
fn malformed() -> Vec<Vec<u8>> {
    const GOOD: &[u8] = b"E 3ff0000000000000";
    let mut list: Vec<Vec<u8>> = MALFORMED.iter().map(|line| line.to_vec()).collect();
    // Lines of these lengths that begin well; 274 is 18 more than 256.
    for length in [31, 32, 33, 34, 64, 274, 5000] {
        let mut line = GOOD.to_vec();
        line.resize(length, b'0');
        list.push(line);
    }
    // Letters of no function, among them capitals for small letters and the other way round.
    for letter in (b'A'..=b'Z').chain(b'a'..=b'z') {
        if !LETTERS.as_bytes().contains(&letter) {
            list.push([&[letter], &GOOD[1..]].concat());
        }
    }
    // And lines that end well.
    for length in [19, 32, 33, 36, 50, 5000] {
        let mut line = vec![b' '; length - GOOD.len()];
        line.extend(GOOD);
        list.push(line);
    }
    list
}

const MALFORMED: &[&[u8]] = &[
    // too little
    b"",
    b" ",
    b"E",
    b"E ",
    b"3ff0000000000000",
    b" 3ff0000000000000",
    b"E 3",
    b"E 3ff00000",
    b"E 3ff000000000000",
    b"n 000000000000000",
    b"S 7ff",
    b"F",
    b"F ",
    b"F 3f80000",
    b"G 3f8",
    b"G3f800000",
    b"T 3ff00000000000",
    // too much
    b"F 3f8000000",
    b"G 03f800000",
    b"F 3f800000 ",
    b"F 3f800000\r",
    b"FF 3f800000",
    b" G 3f800000",
    b"F 3f8000003f800000",
    b"F 3f800000 3f800000",
    b"E 3ff00000000000000",
    b"L 03ff0000000000000",
    b"x 3ff0000000000000 ",
    b"n 3ff0000000000000\t",
    b" E 3ff0000000000000",
    b"EE 3ff0000000000000",
    b"E 3ff0000000000000 3ff0000000000000",
    b"E 3ff0000000000000E 3ff0000000000000",
    b"E 3ff0000000000000\r",
    b"E 3ff0000000000000\rE 3ff0000000000000",
    b"\r",
    b"# a remark",
    b"? 14",
    // the space
    b"E3ff0000000000000",
    b"E03ff0000000000000",
    b"E_3ff0000000000000",
    b"E,3ff0000000000000",
    b"E\t3ff0000000000000",
    b"E\x003ff0000000000000",
    b"E\xa03ff0000000000000",
    b"E\xc2\xa03ff0000000000000",
    b"E  3ff0000000000000",
    b"E  3ff000000000000",
    // the letter; those of no function are added further up
    b"0 3ff0000000000000",
    b"  3ff0000000000000",
    b"@ 3ff0000000000000",
    b"[ 3ff0000000000000",
    b"` 3ff0000000000000",
    b"{ 3ff0000000000000",
    b"f 3f800000",
    b"g 3f800000",
    b"e 3f800000",
    b"\xc3\x89 3ff0000000000000",
    b"\xce\x95 3ff0000000000000",
    b"\xc5 3ff0000000000000",
    b"\xef\xbb\xbfE 3ff0000000000000",
    // the digits: capitals, the bytes beside the ranges, signs and marks
    b"E 3FF0000000000000",
    b"E 3fF0000000000000",
    b"L 3ff000000000000A",
    b"x 3ff000000000000F",
    b"n 3ff000000000000/",
    b"n 3ff000000000000:",
    b"n 3ff000000000000@",
    b"n 3ff000000000000G",
    b"n 3ff000000000000`",
    b"n 3ff000000000000g",
    b"E +3ff000000000000",
    b"E -3ff000000000000",
    b"E 0x3ff00000000000",
    b"E 3ff0_00000000000",
    b"E 3ff0 00000000000",
    b"E 3ff000000000000 ",
    b"E 3ff000000000000\r",
    b"E 3ff000000000000\x00",
    b"E 3ff000000000000\x7f",
    b"E \xff\xff\xff\xff\xff\xff\xff\xff\xff\xff\xff\xff\xff\xff\xff\xff",
    b"E \xef\xbc\x93ff0000000000000",
    b"E 3ff000000000000\xb1",
    b"F 3F800000",
    b"F 3f80000g",
    b"G 3f80000/",
    b"G 0x3f8000",
    b"G +3f80000",
    b"F\t3f800000",
    b"F  3f80000",
    b"F 3f80 000",
    b"T C089000000000000",
    b"s 3ff000000000000A",
    b"c 0x80000000000000",
    // other bytes, not UTF-8 either
    b"\x00",
    b"\x0b",
    b"\x0c",
    b"\x1a",
    b"\x80",
    b"\xff",
    b"\xff\xfe",
    b"\xc3\x28",
    b"\xc0\xae",
    b"\xed\xa0\x80",
    b"\xf4\x90\x80\x80",
    b"\xe2\x80\xa8",
];

/// Lines that the documents name, and a line of each function; then the same with as many
/// digits as the other width has, which are not well formed.
const EVERY_LETTER: &[&[u8]] = &[
    b"T c089000000000000",
    b"c c180000000000000",
    b"S 7ff",
    b"E 3fe0000000000000",
    b"L 3fe0000000000000",
    b"S 3fe0000000000000",
    b"C 3fe0000000000000",
    b"T 3fe0000000000000",
    b"s 3fe0000000000000",
    b"c 4000000000000000",
    b"t 3fe0000000000000",
    b"x 3fe0000000000000",
    b"n 3fe0000000000000",
    b"F 3f000000",
    b"G 3f000000",
    b"F 3fe0000000000000",
    b"G 3fe0000000000000",
    b"E 3f000000",
    b"L 3f000000",
    b"S 3f000000",
    b"C 3f000000",
    b"T 3f000000",
    b"s 3f000000",
    b"c 40000000",
    b"t 3f000000",
    b"x 3f000000",
    b"n 3f000000",
];

/// The whole input. The last line has no line feed.
pub fn all(letters: &str) -> Result<Vec<u8>, String> {
    let mut random = Random(SEED);
    let mut text = Vec::new();
    for letter in letters.chars() {
        let patterns = match letter {
            'E' => expm1(&mut random),
            'L' => log1p(&mut random),
            'S' => sinh(&mut random),
            'C' => cosh(&mut random),
            'T' => tanh(&mut random),
            's' => asinh(&mut random),
            'c' => acosh(&mut random),
            't' => atanh(&mut random),
            'x' => exp(&mut random),
            'n' => log(&mut random),
            'F' => expm1f(&mut random),
            'G' => log1pf(&mut random),
            _ => {
                return Err(format!(
                    "no inputs are written down for the letter {letter}"
                ));
            }
        };
        let width = if patterns.sign == 1 << 31 { 8 } else { 16 };
        for bits in patterns.list {
            text.extend(format!("{letter} {bits:0width$x}\n").bytes());
        }
    }
    for line in EVERY_LETTER {
        text.extend(*line);
        text.push(b'\n');
    }
    // A well-formed line now and then, which shows that the program goes on.
    for (place, line) in malformed().into_iter().enumerate() {
        text.extend(line);
        text.push(b'\n');
        if place % 4 == 3 {
            let letter = LETTERS.as_bytes()[place / 4 % LETTERS.len()] as char;
            let good = match letter {
                'F' | 'G' => format!("{letter} {:08x}\n", (place as f32).to_bits()),
                _ => format!("{letter} {:016x}\n", (place as f64).to_bits()),
            };
            text.extend(good.bytes());
        }
    }
    text.extend(b"n 4005bf0a8b145769");
    Ok(text)
}
