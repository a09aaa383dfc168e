/*
 * Prints the results of the twelve functions at a few arguments, special values among them. A line
 * has the function's name, the bits of the argument and of the result, and both in decimal. A NaN
 * is one value: as a result it is printed as 7ff8000000000000 or 7fc00000, whatever its bits.
 */
#include <inttypes.h>
#include <math.h>
#include <stddef.h>
#include <stdint.h>
#include <stdio.h>
#include <string.h>

#include "wumelisorn.h"

#define COUNT(array) (sizeof(array) / sizeof((array)[0]))

static const struct {
    const char *name;
    double (*call)(double);
} doubles[] = {
    {"expm1", wumelisorn_expm1}, {"log1p", wumelisorn_log1p}, {"exp", wumelisorn_exp},
    {"log", wumelisorn_log},     {"sinh", wumelisorn_sinh},   {"cosh", wumelisorn_cosh},
    {"tanh", wumelisorn_tanh},   {"asinh", wumelisorn_asinh}, {"acosh", wumelisorn_acosh},
    {"atanh", wumelisorn_atanh},
};

static const struct {
    const char *name;
    float (*call)(float);
} singles[] = {
    {"expm1f", wumelisorn_expm1f},
    {"log1pf", wumelisorn_log1pf},
};

static const uint64_t double_arguments[] = {
    UINT64_C(0x0000000000000000), /* 0 */
    UINT64_C(0x8000000000000000), /* -0 */
    UINT64_C(0x0000000000000001), /* the least number above 0 */
    UINT64_C(0x3eb0000000000000), /* 2^-20 */
    UINT64_C(0xbeb0000000000000), /* -2^-20 */
    UINT64_C(0x3fe0000000000000), /* 0.5 */
    UINT64_C(0xbfe0000000000000), /* -0.5 */
    UINT64_C(0x3ff0000000000000), /* 1 */
    UINT64_C(0xbff0000000000000), /* -1 */
    UINT64_C(0x4000000000000000), /* 2 */
    UINT64_C(0xc000000000000000), /* -2 */
    UINT64_C(0x4090000000000000), /* 1024 */
    UINT64_C(0xc090000000000000), /* -1024 */
    UINT64_C(0x7fefffffffffffff), /* the greatest finite number */
    UINT64_C(0x7ff0000000000000), /* infinity */
    UINT64_C(0xfff0000000000000), /* -infinity */
    UINT64_C(0x7ff8000000000000), /* a NaN */
    UINT64_C(0xfff80000deadbeef), /* a NaN with a sign and a payload */
    UINT64_C(0x7ff0000000000001), /* a signalling NaN */
};

static const uint32_t single_arguments[] = {
    UINT32_C(0x00000000), /* 0 */
    UINT32_C(0x80000000), /* -0 */
    UINT32_C(0x00000001), /* the least number above 0 */
    UINT32_C(0x35800000), /* 2^-20 */
    UINT32_C(0xb5800000), /* -2^-20 */
    UINT32_C(0x3f000000), /* 0.5 */
    UINT32_C(0xbf000000), /* -0.5 */
    UINT32_C(0x3f800000), /* 1 */
    UINT32_C(0xbf800000), /* -1 */
    UINT32_C(0x40000000), /* 2 */
    UINT32_C(0xc0000000), /* -2 */
    UINT32_C(0x44800000), /* 1024 */
    UINT32_C(0xc4800000), /* -1024 */
    UINT32_C(0x7f7fffff), /* the greatest finite number */
    UINT32_C(0x7f800000), /* infinity */
    UINT32_C(0xff800000), /* -infinity */
    UINT32_C(0x7fc00000), /* a NaN */
    UINT32_C(0xffc0beef), /* a NaN with a sign and a payload */
    UINT32_C(0x7f800001), /* a signalling NaN */
};

static void print_decimal(double x, int digits) {
    if (isnan(x)) {
        printf(" nan");
    } else if (isinf(x)) {
        printf(x < 0 ? " -inf" : " inf");
    } else {
        printf(" %.*e", digits, x);
    }
}

static void print_double(const char *name, uint64_t argument, double x, double result) {
    uint64_t bits = UINT64_C(0x7ff8000000000000);
    if (!isnan(result)) {
        memcpy(&bits, &result, sizeof bits);
    }
    printf("%s %016" PRIx64 " %016" PRIx64, name, argument, bits);
    print_decimal(x, 16);
    print_decimal(result, 16);
    putchar('\n');
}

static void print_single(const char *name, uint32_t argument, float x, float result) {
    uint32_t bits = UINT32_C(0x7fc00000);
    if (!isnan(result)) {
        memcpy(&bits, &result, sizeof bits);
    }
    printf("%s %08" PRIx32 " %08" PRIx32, name, argument, bits);
    print_decimal(x, 8);
    print_decimal(result, 8);
    putchar('\n');
}

int main(void) {
    for (size_t f = 0; f < COUNT(doubles); f++) {
        for (size_t i = 0; i < COUNT(double_arguments); i++) {
            double x;
            memcpy(&x, &double_arguments[i], sizeof x);
            print_double(doubles[f].name, double_arguments[i], x, doubles[f].call(x));
        }
    }
    for (size_t f = 0; f < COUNT(singles); f++) {
        for (size_t i = 0; i < COUNT(single_arguments); i++) {
            float x;
            memcpy(&x, &single_arguments[i], sizeof x);
            print_single(singles[f].name, single_arguments[i], x, singles[f].call(x));
        }
    }
    return fflush(stdout) == 0 ? 0 : 1;
}
