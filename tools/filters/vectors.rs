// Sums and products of vectors, of whole numbers and of f64.

use std::ops::{Add, Mul, Sub};

pub fn plus<T: Copy + Add<Output = T>>(u: [T; 3], v: [T; 3]) -> [T; 3] {
    [u[0] + v[0], u[1] + v[1], u[2] + v[2]]
}

pub fn minus<T: Copy + Sub<Output = T>>(u: [T; 3], v: [T; 3]) -> [T; 3] {
    [u[0] - v[0], u[1] - v[1], u[2] - v[2]]
}

pub fn dot<T: Copy + Add<Output = T> + Mul<Output = T>>(u: [T; 3], v: [T; 3]) -> T {
    u[0] * v[0] + u[1] * v[1] + u[2] * v[2]
}

pub fn cross<T: Copy + Sub<Output = T> + Mul<Output = T>>(u: [T; 3], v: [T; 3]) -> [T; 3] {
    [
        u[1] * v[2] - u[2] * v[1],
        u[2] * v[0] - u[0] * v[2],
        u[0] * v[1] - u[1] * v[0],
    ]
}
