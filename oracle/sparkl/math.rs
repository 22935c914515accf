//! For `parry::math` and the parts of nalgebra behind it: vectors, points and matrices, each operation of every component by
//! itself and once rounded, sums of products from left to right.

#[cfg(feature = "dim2")]
use std::ops::IndexMut;
use std::ops::{Add, AddAssign, Deref, Div, Index, Mul, Neg, Sub, SubAssign};

pub type Kernel = crate::kernel::QuadraticKernel;
pub type Real = f32;
pub type Matrix<T> = SMatrix<T, DIM, DIM>;

#[cfg(feature = "dim2")]
pub const DIM: usize = 2;
#[cfg(feature = "dim3")]
pub const DIM: usize = 3;

/// For `nalgebra::zero`.
pub fn zero<T: Default>() -> T {
    T::default()
}

// Vectors.

#[derive(Copy, Clone, Debug, Default, PartialEq)]
pub struct Vector<T> {
    pub x: T,
    pub y: T,
    #[cfg(feature = "dim3")]
    pub z: T,
}

impl<T> Vector<T> {
    pub fn map<R>(self, mut f: impl FnMut(T) -> R) -> Vector<R> {
        Vector {
            x: f(self.x),
            y: f(self.y),
            #[cfg(feature = "dim3")]
            z: f(self.z),
        }
    }

    pub fn zip_map<R>(self, other: Self, mut f: impl FnMut(T, T) -> R) -> Vector<R> {
        Vector {
            x: f(self.x, other.x),
            y: f(self.y, other.y),
            #[cfg(feature = "dim3")]
            z: f(self.z, other.z),
        }
    }

    pub fn cast<R>(self) -> Vector<R>
    where
        T: Cast<R>,
    {
        self.map(T::cast)
    }
}

/// The conversions that `cast` is used for, which are Rust's `as`.
pub trait Cast<R> {
    fn cast(self) -> R;
}

impl Cast<Real> for u32 {
    fn cast(self) -> Real {
        self as Real
    }
}

impl Cast<Real> for usize {
    fn cast(self) -> Real {
        self as Real
    }
}

impl<T: Copy> Vector<T> {
    pub fn repeat(part: T) -> Self {
        Vector {
            x: part,
            y: part,
            #[cfg(feature = "dim3")]
            z: part,
        }
    }
}

impl Vector<Real> {
    pub fn zeros() -> Self {
        zero()
    }

    pub fn fill(&mut self, part: Real) {
        *self = Vector::repeat(part);
    }
}

/// Sums of two terms, whose order cannot matter; a norm is the root of such a sum.
#[cfg(feature = "dim2")]
impl Vector<Real> {
    pub fn dot(&self, other: &Self) -> Real {
        self.x * other.x + self.y * other.y
    }

    pub fn norm(&self) -> Real {
        self.dot(self).sqrt()
    }

    pub fn transpose(&self) -> RowVector {
        RowVector(*self)
    }
}

/// A vector as a row: what a column is multiplied with to make a matrix.
#[cfg(feature = "dim2")]
#[derive(Copy, Clone)]
pub struct RowVector(Vector<Real>);

/// Each entry is one product.
#[cfg(feature = "dim2")]
impl Mul<RowVector> for Vector<Real> {
    type Output = Matrix<Real>;

    fn mul(self, RowVector(row): RowVector) -> Matrix<Real> {
        SMatrix([[self.x * row.x, self.x * row.y], [self.y * row.x, self.y * row.y]])
    }
}

/// For `nalgebra::distance`, which a function names that nothing here asks.
#[cfg(feature = "dim2")]
pub fn distance(one: &Point<Real>, other: &Point<Real>) -> Real {
    (*other - *one).norm()
}

/// For `nalgebra::Unit`: a vector divided by its norm.
#[cfg(feature = "dim2")]
#[derive(Copy, Clone)]
pub struct Unit<V>(V);

#[cfg(feature = "dim2")]
impl Unit<Vector<Real>> {
    /// nalgebra's rule: squares are compared, and the norm is the root of the square that was compared.
    pub fn try_new_and_get(vector: Vector<Real>, min_norm: Real) -> Option<(Self, Real)> {
        let square = vector.dot(&vector);
        let norm = square.sqrt();
        (square > min_norm * min_norm).then(|| (Unit(vector / norm), norm))
    }

    pub fn into_inner(self) -> Vector<Real> {
        self.0
    }
}

#[cfg(feature = "dim2")]
impl Deref for Unit<Vector<Real>> {
    type Target = Vector<Real>;

    fn deref(&self) -> &Vector<Real> {
        &self.0
    }
}

#[cfg(feature = "dim2")]
impl Neg for Unit<Vector<Real>> {
    type Output = Self;

    fn neg(self) -> Self {
        Unit(-self.0)
    }
}

#[cfg(feature = "dim2")]
impl<T> From<[T; 2]> for Vector<T> {
    fn from([x, y]: [T; 2]) -> Self {
        Vector { x, y }
    }
}

#[cfg(feature = "dim3")]
impl<T> From<[T; 3]> for Vector<T> {
    fn from([x, y, z]: [T; 3]) -> Self {
        Vector { x, y, z }
    }
}

impl Mul<Real> for Vector<Real> {
    type Output = Self;

    fn mul(self, factor: Real) -> Self {
        self.map(|part| part * factor)
    }
}

impl Mul<Vector<Real>> for Real {
    type Output = Vector<Real>;

    fn mul(self, vector: Vector<Real>) -> Vector<Real> {
        vector.map(|part| self * part)
    }
}

impl Mul<&Vector<Real>> for Real {
    type Output = Vector<Real>;

    fn mul(self, vector: &Vector<Real>) -> Vector<Real> {
        self * *vector
    }
}

impl Div<Real> for Vector<Real> {
    type Output = Self;

    fn div(self, divisor: Real) -> Self {
        self.map(|part| part / divisor)
    }
}

impl Neg for Vector<Real> {
    type Output = Self;

    fn neg(self) -> Self {
        self.map(|part| -part)
    }
}

impl Add for Vector<Real> {
    type Output = Self;

    fn add(self, other: Self) -> Self {
        self.zip_map(other, |one, other| one + other)
    }
}

impl AddAssign for Vector<Real> {
    fn add_assign(&mut self, other: Self) {
        *self = *self + other;
    }
}

impl Sub for Vector<Real> {
    type Output = Self;

    fn sub(self, other: Self) -> Self {
        self.zip_map(other, |one, other| one - other)
    }
}

impl SubAssign for Vector<Real> {
    fn sub_assign(&mut self, other: Self) {
        *self = *self - other;
    }
}

// Points.

/// The vector from the origin to it, by which all is computed. It is a type of its own, so that what is built here keeps points and vectors
/// apart as nalgebra does.
#[derive(Copy, Clone, Debug, Default, PartialEq)]
pub struct Point<T> {
    pub coords: Vector<T>,
}

impl<T> Point<T> {
    pub fn map<R>(self, f: impl FnMut(T) -> R) -> Point<R> {
        Point { coords: self.coords.map(f) }
    }

    pub fn cast<R>(self) -> Point<R>
    where
        T: Cast<R>,
    {
        Point { coords: self.coords.cast() }
    }
}

impl<T> Deref for Point<T> {
    type Target = Vector<T>;

    fn deref(&self) -> &Vector<T> {
        &self.coords
    }
}

impl<T> From<[T; DIM]> for Point<T> {
    fn from(parts: [T; DIM]) -> Self {
        Point { coords: Vector::from(parts) }
    }
}

impl Mul<Real> for Point<Real> {
    type Output = Self;

    fn mul(self, factor: Real) -> Self {
        Point { coords: self.coords * factor }
    }
}

impl Div<Real> for Point<Real> {
    type Output = Self;

    fn div(self, divisor: Real) -> Self {
        Point { coords: self.coords / divisor }
    }
}

impl Div<Real> for &Point<Real> {
    type Output = Point<Real>;

    fn div(self, divisor: Real) -> Point<Real> {
        *self / divisor
    }
}

impl Sub for Point<Real> {
    type Output = Vector<Real>;

    fn sub(self, other: Self) -> Vector<Real> {
        self.coords - other.coords
    }
}

impl Sub<Vector<Real>> for Point<Real> {
    type Output = Self;

    fn sub(self, way: Vector<Real>) -> Self {
        Point { coords: self.coords - way }
    }
}

impl AddAssign<Vector<Real>> for Point<Real> {
    fn add_assign(&mut self, way: Vector<Real>) {
        self.coords += way;
    }
}

// Matrices.

/// For `nalgebra::SMatrix`, by rows. `physics.rs` names more of it, in functions that nothing here asks.
#[derive(Copy, Clone, Debug, PartialEq)]
pub struct SMatrix<T, const R: usize, const C: usize>(pub [[T; C]; R]);

impl<const R: usize, const C: usize> SMatrix<Real, R, C> {
    pub fn zeros() -> Self {
        SMatrix([[0.0; C]; R])
    }

    pub fn fill(&mut self, part: Real) {
        *self = SMatrix([[part; C]; R]);
    }

    pub fn identity() -> Self {
        let mut made = Self::zeros();
        (0..R.min(C)).for_each(|place| made.0[place][place] = 1.0);
        made
    }

    /// By places, which a compiler lays out as straight code, as it does nalgebra's.
    #[inline(always)]
    pub fn zip_map(&self, other: &Self, mut f: impl FnMut(Real, Real) -> Real) -> Self {
        let mut made = *self;
        for row in 0..R {
            for column in 0..C {
                made.0[row][column] = f(self.0[row][column], other.0[row][column]);
            }
        }
        made
    }

    #[inline(always)]
    fn map(&self, mut f: impl FnMut(Real) -> Real) -> Self {
        self.zip_map(self, |part, _| f(part))
    }

    pub fn min(&self) -> Real {
        self.0.iter().flatten().copied().fold(Real::INFINITY, Real::min)
    }

    pub fn trace(&self) -> Real {
        (0..R.min(C)).map(|place| self.0[place][place]).sum()
    }

    pub fn transpose(&self) -> SMatrix<Real, C, R> {
        let mut made = SMatrix::zeros();
        (0..R).for_each(|row| (0..C).for_each(|column| made.0[column][row] = self.0[row][column]));
        made
    }
}

impl SMatrix<Real, 2, 2> {
    /// By rows.
    pub fn new(m11: Real, m12: Real, m21: Real, m22: Real) -> Self {
        SMatrix([[m11, m12], [m21, m22]])
    }

    pub fn determinant(&self) -> Real {
        let [[a, b], [c, d]] = self.0;
        a * d - b * c
    }
}

impl<T, const R: usize, const C: usize> Index<(usize, usize)> for SMatrix<T, R, C> {
    type Output = T;

    fn index(&self, (row, column): (usize, usize)) -> &T {
        &self.0[row][column]
    }
}

#[cfg(feature = "dim2")]
impl<T, const R: usize, const C: usize> IndexMut<(usize, usize)> for SMatrix<T, R, C> {
    fn index_mut(&mut self, (row, column): (usize, usize)) -> &mut T {
        &mut self.0[row][column]
    }
}

impl<const R: usize, const C: usize> Add<SMatrix<Real, R, C>> for &SMatrix<Real, R, C> {
    type Output = SMatrix<Real, R, C>;

    fn add(self, other: SMatrix<Real, R, C>) -> SMatrix<Real, R, C> {
        self.zip_map(&other, |one, other| one + other)
    }
}

impl<const R: usize, const C: usize> AddAssign for SMatrix<Real, R, C> {
    fn add_assign(&mut self, other: Self) {
        *self = &*self + other;
    }
}

impl<const R: usize, const C: usize> Sub for SMatrix<Real, R, C> {
    type Output = Self;

    fn sub(self, other: Self) -> Self {
        self.zip_map(&other, |one, other| one - other)
    }
}

impl<const R: usize, const C: usize> Sub<SMatrix<Real, R, C>> for &SMatrix<Real, R, C> {
    type Output = SMatrix<Real, R, C>;

    fn sub(self, other: SMatrix<Real, R, C>) -> SMatrix<Real, R, C> {
        *self - other
    }
}

impl<const R: usize, const C: usize> Mul<Real> for SMatrix<Real, R, C> {
    type Output = Self;

    fn mul(self, factor: Real) -> Self {
        self.map(|part| part * factor)
    }
}

impl<const R: usize, const C: usize> Mul<SMatrix<Real, R, C>> for Real {
    type Output = SMatrix<Real, R, C>;

    fn mul(self, matrix: SMatrix<Real, R, C>) -> SMatrix<Real, R, C> {
        matrix.map(|part| self * part)
    }
}

#[cfg(feature = "dim2")]
impl Mul<Vector<Real>> for Matrix<Real> {
    type Output = Vector<Real>;

    fn mul(self, Vector { x, y }: Vector<Real>) -> Vector<Real> {
        let [[a, b], [c, d]] = self.0;
        Vector { x: a * x + b * y, y: c * x + d * y }
    }
}

#[cfg(feature = "dim2")]
impl Mul for Matrix<Real> {
    type Output = Self;

    fn mul(self, other: Self) -> Self {
        let ([[a, b], [c, d]], [[e, f], [g, h]]) = (self.0, other.0);
        SMatrix([[a * e + b * g, a * f + b * h], [c * e + d * g, c * f + d * h]])
    }
}

/// `physics.rs` names it, in a function that nothing here asks.
pub struct DecomposedTensor {
    pub deviatoric_part: Matrix<Real>,
}

impl DecomposedTensor {
    pub fn decompose(tensor: &Matrix<Real>) -> Self {
        DecomposedTensor { deviatoric_part: tensor - Matrix::identity() * (tensor.trace() / DIM as Real) }
    }
}
