//! Complex numbers.

use crate::exported;

/// A complex number.
#[repr(C)]
#[derive(Clone, Copy, Debug, PartialEq)]
pub struct Complex {
    pub re: f64,
    pub im: f64,
}

impl Complex {
    pub const fn new(re: f64, im: f64) -> Self {
        Complex { re, im }
    }

    /// A real number, with the imaginary part +0.
    pub const fn from_real(re: f64) -> Self {
        Complex { re, im: 0.0 }
    }

    /// The product: (ac - bd, ad + bc).
    ///
    /// ```
    /// use bazintroa::Complex;
    ///
    /// let z = Complex::new(1.0, 2.0);
    /// let w = Complex::new(3.0, 4.0);
    /// assert_eq!(z.multiply(&w), Complex::new(-5.0, 10.0));
    /// ```
    #[inline]
    pub fn multiply(&self, other: &Self) -> Self {
        Self::written(|out| exported::complex_multiply(&self.parts(), &other.parts(), out))
    }

    /// The sum, by parts.
    ///
    /// ```
    /// use bazintroa::Complex;
    ///
    /// let sum = Complex::new(1.0, 2.0).add(&Complex::new(3.0, 4.0));
    /// assert_eq!(sum, Complex::new(4.0, 6.0));
    /// ```
    #[inline]
    pub fn add(&self, other: &Self) -> Self {
        Self::written(|out| exported::complex_add(&self.parts(), &other.parts(), out))
    }

    /// The difference, by parts.
    ///
    /// ```
    /// use bazintroa::Complex;
    ///
    /// let difference = Complex::new(1.0, 2.0).sub(&Complex::new(3.0, 5.0));
    /// assert_eq!(difference, Complex::new(-2.0, -3.0));
    /// ```
    #[inline]
    pub fn sub(&self, other: &Self) -> Self {
        Self::written(|out| exported::complex_sub(&self.parts(), &other.parts(), out))
    }

    /// The root of the squared magnitude.
    ///
    /// ```
    /// use bazintroa::Complex;
    ///
    /// assert_eq!(Complex::new(-3.0, 4.0).magnitude(), 5.0);
    /// ```
    #[inline]
    pub fn magnitude(&self) -> f64 {
        exported::complex_magnitude(&self.parts())
    }

    /// The squared magnitude: re² + im².
    ///
    /// ```
    /// use bazintroa::Complex;
    ///
    /// assert_eq!(Complex::new(-3.0, 4.0).magnitude_sq(), 25.0);
    /// ```
    #[inline]
    pub fn magnitude_sq(&self) -> f64 {
        exported::complex_magnitude_sq(&self.parts())
    }

    /// The reciprocal; none if the squared magnitude is below 2^-52. A NaN is not below it.
    ///
    /// ```
    /// use bazintroa::Complex;
    ///
    /// assert_eq!(Complex::new(0.0, 2.0).reciprocal(), Some(Complex::new(0.0, -0.5)));
    /// assert_eq!(Complex::new(0.0, 0.0).reciprocal(), None);
    /// ```
    #[inline]
    pub fn reciprocal(&self) -> Option<Self> {
        Self::found(|out| exported::complex_reciprocal(&self.parts(), out))
    }

    /// The quotient; none if the squared magnitude of `other` is below 2^-52. A NaN is not below it.
    ///
    /// ```
    /// use bazintroa::Complex;
    ///
    /// let z = Complex::new(-5.0, 10.0);
    /// assert_eq!(z.divide(&Complex::new(3.0, 4.0)), Some(Complex::new(1.0, 2.0)));
    /// assert_eq!(z.divide(&Complex::new(0.0, 0.0)), None);
    /// ```
    #[inline]
    pub fn divide(&self, other: &Self) -> Option<Self> {
        Self::found(|out| exported::complex_divide(&self.parts(), &other.parts(), out))
    }

    /// The quotient, or (0, 0) where there is none.
    ///
    /// ```
    /// use bazintroa::Complex;
    ///
    /// let zero = Complex::new(0.0, 0.0);
    /// assert_eq!(Complex::new(-5.0, 10.0).divide_or_zero(&zero), zero);
    /// ```
    #[inline]
    pub fn divide_or_zero(&self, other: &Self) -> Self {
        Self::written(|out| exported::complex_divide_or_zero(&self.parts(), &other.parts(), out))
    }

    #[inline]
    pub(crate) fn parts(&self) -> [f64; 2] {
        [self.re, self.im]
    }

    #[inline]
    pub(crate) fn of_parts([re, im]: [f64; 2]) -> Self {
        Complex { re, im }
    }

    /// What a call writes to its place.
    #[inline]
    fn written(call: impl FnOnce(&mut [f64; 2])) -> Self {
        let mut place = [0.0; 2];
        call(&mut place);
        Self::of_parts(place)
    }

    /// What a call writes to its place, if it finds something. It turns nothing away.
    #[inline]
    fn found(call: impl FnOnce(&mut [f64; 2]) -> u32) -> Option<Self> {
        let mut place = [0.0; 2];
        (call(&mut place) == 0).then(|| Self::of_parts(place))
    }
}
