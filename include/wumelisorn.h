/*
 * The twelve functions of Wumelisorn, from the static library crates/exports/out/libexports.a.
 * docs/EXPORTS.md says how to build and link it.
 *
 * Every argument is allowed, and there is nothing to set up. A NaN of any bits, quiet or
 * signalling, gives a NaN; which NaN comes back is not said. The functions keep no state, call
 * nothing of the C library and never set errno; no promise is made on the floating-point exception
 * flags. The calling thread has to be in the usual floating-point mode: rounding to nearest,
 * subnormal numbers kept.
 *
 * Week sheets are not exported. Closing a sheet takes its open head away, which keeps figures out of
 * a closed sheet; in C that head could be copied and kept, so that open and closed sheets could not
 * be told apart.
 *
 * Nothing checks that these declarations are those of the library.
 */
#ifndef WUMELISORN_H
#define WUMELISORN_H

#ifdef __cplusplus
extern "C" {
#endif

/* e^x - 1, accurate for small x too. A zero and +infinity give themselves, -infinity gives -1. */
double wumelisorn_expm1(double x);

/* The natural logarithm of 1 + x, accurate for small x too. A zero and +infinity give themselves,
   -1 gives -infinity, and what is below -1 gives NaN. */
double wumelisorn_log1p(double x);

/* e^x. A zero gives 1, -infinity gives +0, and +infinity itself. */
double wumelisorn_exp(double x);

/* The natural logarithm. 1 gives +0, a zero -infinity, +infinity itself, and what is below zero
   gives NaN. */
double wumelisorn_log(double x);

/* The hyperbolic sine. Zeros and infinities give themselves. */
double wumelisorn_sinh(double x);

/* The hyperbolic cosine. A zero gives 1, an infinity +infinity. */
double wumelisorn_cosh(double x);

/* The hyperbolic tangent. A zero gives itself, an infinity 1 with its sign. */
double wumelisorn_tanh(double x);

/* The inverse of sinh. Zeros and infinities give themselves. */
double wumelisorn_asinh(double x);

/* The inverse of cosh. 1 gives +0, +infinity itself, and what is below 1 gives NaN. */
double wumelisorn_acosh(double x);

/* The inverse of tanh. A zero gives itself, 1 and -1 an infinity with their sign, and what is
   beyond them gives NaN. */
double wumelisorn_atanh(double x);

/* expm1 in single precision: e^x - 1. A zero and +infinity give themselves, -infinity gives -1. */
float wumelisorn_expm1f(float x);

/* log1p in single precision: the natural logarithm of 1 + x. A zero and +infinity give themselves,
   -1 gives -infinity, and what is below -1 gives NaN. */
float wumelisorn_log1pf(float x);

#ifdef __cplusplus
}
#endif

#endif
