//! Stand-in for the vectors of `glam`: what the original uses of them, by the
//! rules of glam's scalar code.

use std::ops::{Add, Mul, Sub};

/// Three f64.
#[derive(Debug, Clone, Copy, PartialEq)]
pub struct DVec3 {
    pub x: f64,
    pub y: f64,
    pub z: f64,
}

impl DVec3 {
    pub const ZERO: Self = Self::new(0.0, 0.0, 0.0);
    pub const ONE: Self = Self::new(1.0, 1.0, 1.0);
    pub const Y: Self = Self::new(0.0, 1.0, 0.0);

    pub const fn new(x: f64, y: f64, z: f64) -> Self {
        Self { x, y, z }
    }

    pub const fn to_array(self) -> [f64; 3] {
        [self.x, self.y, self.z]
    }

    fn map(self, f: impl Fn(f64) -> f64) -> Self {
        Self::new(f(self.x), f(self.y), f(self.z))
    }

    fn zip(self, other: Self, f: impl Fn(f64, f64) -> f64) -> Self {
        Self::new(f(self.x, other.x), f(self.y, other.y), f(self.z, other.z))
    }

    /// The smaller on each axis.
    pub fn min(self, other: Self) -> Self {
        self.zip(other, f64::min)
    }

    /// The larger on each axis.
    pub fn max(self, other: Self) -> Self {
        self.zip(other, f64::max)
    }

    pub fn abs(self) -> Self {
        self.map(f64::abs)
    }

    pub fn floor(self) -> Self {
        self.map(f64::floor)
    }

    pub fn ceil(self) -> Self {
        self.map(f64::ceil)
    }

    /// The largest of the three.
    pub fn max_element(self) -> f64 {
        self.x.max(self.y.max(self.z))
    }

    pub fn is_finite(self) -> bool {
        self.x.is_finite() && self.y.is_finite() && self.z.is_finite()
    }

    /// Summed left to right, one rounding an operation.
    pub fn dot(self, other: Self) -> f64 {
        (self.x * other.x) + (self.y * other.y) + (self.z * other.z)
    }

    pub fn length(self) -> f64 {
        self.dot(self).sqrt()
    }

    pub fn distance(self, other: Self) -> f64 {
        (self - other).length()
    }

    /// Saturating at the ends, NaN to 0, as Rust's `as`.
    pub fn as_ivec3(self) -> IVec3 {
        IVec3::new(self.x as i32, self.y as i32, self.z as i32)
    }
}

impl Add for DVec3 {
    type Output = Self;
    fn add(self, other: Self) -> Self {
        self.zip(other, |a, b| a + b)
    }
}

impl Sub for DVec3 {
    type Output = Self;
    fn sub(self, other: Self) -> Self {
        self.zip(other, |a, b| a - b)
    }
}

impl Mul<f64> for DVec3 {
    type Output = Self;
    fn mul(self, by: f64) -> Self {
        self.map(|a| a * by)
    }
}

/// Three i32.
#[derive(Debug, Clone, Copy, PartialEq, Eq, Hash)]
pub struct IVec3 {
    pub x: i32,
    pub y: i32,
    pub z: i32,
}

impl IVec3 {
    pub const fn new(x: i32, y: i32, z: i32) -> Self {
        Self { x, y, z }
    }

    pub fn as_dvec3(self) -> DVec3 {
        DVec3::new(f64::from(self.x), f64::from(self.y), f64::from(self.z))
    }
}
