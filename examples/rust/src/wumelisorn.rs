//! The functions of the static library `libexports.a`, under their plain names.
//!
//! Every argument is allowed. A NaN of any bits gives a NaN; which one comes back is not said.

// SAFETY: the types are those of the library's functions. They take every argument, keep no state,
// touch no memory but the stack, and return.
#[link(name = "exports", kind = "static")]
unsafe extern "C" {
    /// e^x − 1, accurate for small x too.
    #[link_name = "wumelisorn_expm1"]
    pub safe fn expm1(x: f64) -> f64;

    /// The natural logarithm of 1 + x, accurate for small x too.
    #[link_name = "wumelisorn_log1p"]
    pub safe fn log1p(x: f64) -> f64;

    /// e^x.
    #[link_name = "wumelisorn_exp"]
    pub safe fn exp(x: f64) -> f64;

    /// The natural logarithm.
    #[link_name = "wumelisorn_log"]
    pub safe fn log(x: f64) -> f64;

    /// The hyperbolic sine.
    #[link_name = "wumelisorn_sinh"]
    pub safe fn sinh(x: f64) -> f64;

    /// The hyperbolic cosine.
    #[link_name = "wumelisorn_cosh"]
    pub safe fn cosh(x: f64) -> f64;

    /// The hyperbolic tangent.
    #[link_name = "wumelisorn_tanh"]
    pub safe fn tanh(x: f64) -> f64;

    /// The inverse of sinh.
    #[link_name = "wumelisorn_asinh"]
    pub safe fn asinh(x: f64) -> f64;

    /// The inverse of cosh; NaN below 1.
    #[link_name = "wumelisorn_acosh"]
    pub safe fn acosh(x: f64) -> f64;

    /// The inverse of tanh; NaN beyond −1 and 1.
    #[link_name = "wumelisorn_atanh"]
    pub safe fn atanh(x: f64) -> f64;

    /// e^x − 1 in single precision.
    #[link_name = "wumelisorn_expm1f"]
    pub safe fn expm1f(x: f32) -> f32;

    /// The natural logarithm of 1 + x in single precision.
    #[link_name = "wumelisorn_log1pf"]
    pub safe fn log1pf(x: f32) -> f32;
}
