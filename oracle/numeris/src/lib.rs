// SPDX-License-Identifier: MIT OR Apache-2.0
//! A stand-in for numeris. Its operations are written from document 01: component by component, each product and each sum
//! rounded once, division a true division. `scaled_norm` is the size that document 02 (W-204) puts in its place. It is not
//! numeris.
use std::ops::{Add, AddAssign, Div, Index, Mul, Neg, Sub};

pub mod ode {
    #[derive(Debug, Clone, Copy, PartialEq, Eq)]
    pub enum OdeError {
        StepNotFinite,
        MaxStepsExceeded,
        NoDenseOutput,
        InterpOutOfBounds,
    }
}

pub trait FloatScalar:
    Copy
    + PartialOrd
    + Add<Output = Self>
    + Sub<Output = Self>
    + Mul<Output = Self>
    + Div<Output = Self>
    + Neg<Output = Self>
{
    fn zero() -> Self;
    fn one() -> Self;
    fn from(x: f64) -> Option<Self>;
    fn to_f64(self) -> Option<f64>;
    fn abs(self) -> Self;
    fn sqrt(self) -> Self;
}

impl FloatScalar for f64 {
    fn zero() -> f64 {
        0.0
    }
    fn one() -> f64 {
        1.0
    }
    fn from(x: f64) -> Option<f64> {
        Some(x)
    }
    fn to_f64(self) -> Option<f64> {
        Some(self)
    }
    fn abs(self) -> f64 {
        f64::abs(self)
    }
    /// Rounded once, to nearest, as IEEE 754 asks of it.
    fn sqrt(self) -> f64 {
        f64::sqrt(self)
    }
}

#[derive(Debug, Clone, Copy, PartialEq)]
pub struct Vector<T, const D: usize>([T; D]);

impl<T: FloatScalar, const D: usize> Vector<T, D> {
    pub fn zeros() -> Self {
        Vector([T::zero(); D])
    }

    pub fn from_array(values: [T; D]) -> Self {
        Vector(values)
    }

    pub fn abs(self) -> Self {
        Vector(self.0.map(T::abs))
    }

    /// The root of the mean square. The sum begins with the first square, not with zero, and takes the others in order.
    pub fn scaled_norm(self) -> T {
        let squares = self.0.map(|x| x * x);
        let sum = squares[1..].iter().fold(squares[0], |sum, x| sum + *x);
        (sum / T::from(D as f64).unwrap()).sqrt()
    }

    fn with(self, other: Self, op: impl Fn(T, T) -> T) -> Self {
        Vector(std::array::from_fn(|i| op(self.0[i], other.0[i])))
    }
}

impl<T: FloatScalar, const D: usize> Add for Vector<T, D> {
    type Output = Self;
    fn add(self, other: Self) -> Self {
        self.with(other, |a, b| a + b)
    }
}

impl<T: FloatScalar, const D: usize> AddAssign for Vector<T, D> {
    fn add_assign(&mut self, other: Self) {
        *self = *self + other;
    }
}

impl<T: FloatScalar, const D: usize> Sub for Vector<T, D> {
    type Output = Self;
    fn sub(self, other: Self) -> Self {
        self.with(other, |a, b| a - b)
    }
}

impl<T: FloatScalar, const D: usize> Mul<T> for Vector<T, D> {
    type Output = Self;
    fn mul(self, k: T) -> Self {
        Vector(self.0.map(|x| x * k))
    }
}

impl<T: FloatScalar, const D: usize> Div<T> for Vector<T, D> {
    type Output = Self;
    fn div(self, k: T) -> Self {
        Vector(self.0.map(|x| x / k))
    }
}

impl<T, const D: usize> Index<usize> for Vector<T, D> {
    type Output = T;
    fn index(&self, i: usize) -> &T {
        &self.0[i]
    }
}
