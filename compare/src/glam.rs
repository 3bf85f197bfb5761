//! The few operations of the vector library that the extracted code uses, by component (document 01, section 1).
use std::ops::{Add, Mul, Neg, Sub};

#[derive(Debug, Clone, Copy, PartialEq)]
pub struct Vec2 {
    pub x: f32,
    pub y: f32,
}

#[inline(always)]
pub const fn vec2(x: f32, y: f32) -> Vec2 {
    Vec2 { x, y }
}

impl Vec2 {
    pub const ZERO: Vec2 = vec2(0.0, 0.0);

    #[inline(always)]
    pub fn dot(self, b: Vec2) -> f32 {
        self.x * b.x + self.y * b.y
    }

    #[inline(always)]
    pub fn perp_dot(self, b: Vec2) -> f32 {
        self.x * b.y - self.y * b.x
    }

    pub fn project_onto(self, b: Vec2) -> Vec2 {
        b * (self.dot(b) / b.dot(b))
    }

    pub fn distance(self, b: Vec2) -> f32 {
        (self - b).dot(self - b).sqrt()
    }

    /// Times 1/length, and the length the root of the dot product (document 02, point 2).
    pub fn normalize(self) -> Vec2 {
        self * (1.0 / self.dot(self).sqrt())
    }
}

impl Add for Vec2 {
    type Output = Vec2;
    #[inline(always)]
    fn add(self, b: Vec2) -> Vec2 {
        vec2(self.x + b.x, self.y + b.y)
    }
}

impl Add<Vec2> for &Vec2 {
    type Output = Vec2;
    #[inline(always)]
    fn add(self, b: Vec2) -> Vec2 {
        *self + b
    }
}

impl Sub for Vec2 {
    type Output = Vec2;
    #[inline(always)]
    fn sub(self, b: Vec2) -> Vec2 {
        vec2(self.x - b.x, self.y - b.y)
    }
}

impl Neg for Vec2 {
    type Output = Vec2;
    #[inline(always)]
    fn neg(self) -> Vec2 {
        vec2(-self.x, -self.y)
    }
}

impl Mul<f32> for Vec2 {
    type Output = Vec2;
    #[inline(always)]
    fn mul(self, k: f32) -> Vec2 {
        vec2(self.x * k, self.y * k)
    }
}

impl Mul<Vec2> for f32 {
    type Output = Vec2;
    #[inline(always)]
    fn mul(self, v: Vec2) -> Vec2 {
        v * self
    }
}
