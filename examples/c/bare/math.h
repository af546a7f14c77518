/* SPDX-License-Identifier: MIT OR Apache-2.0 */
#ifndef BARE_MATH_H
#define BARE_MATH_H
#define NAN __builtin_nanf("")
#define INFINITY __builtin_inff()
#define isnan(x) __builtin_isnan(x)
#define isfinite(x) __builtin_isfinite(x)
double fabs(double x);
double fmax(double x, double y);
double fmin(double x, double y);
double floor(double x);
double fmod(double x, double y);
double sqrt(double x);
double pow(double x, double y);
double ldexp(double x, int n);
int ilogb(double x);
double sin(double x);
double cos(double x);
double asin(double x);
double acos(double x);
double atan2(double y, double x);
#endif
