//! Transfer functions and their values at a frequency.

use crate::refusal::value;
use crate::{exported, Complex, Refusal};

/// A transfer function of discrete time: the sum of b\[k\]·z^-k divided by 1 plus the sum of
/// a\[k\]·z^-(k+1), each over the k below the order. The coefficients past it do not matter.
#[derive(Clone, Copy, Debug, PartialEq)]
pub struct TransferFn {
    pub b: [f64; 8],
    pub a: [f64; 8],
    pub order: usize,
}

impl TransferFn {
    /// The value at the frequency ω whose cosines and sines of -(ω·k) are in the lists, for k = 0,
    /// 1, 2 and on, as [`pairs`] writes them. It needs as many as the order and one more, and
    /// ignores the others. The value is (0, 0) where the denominator's squared magnitude is below
    /// 2^-52, and for order 0.
    ///
    /// Refused with [`Refusal::WrongOrder`] if the order is above 8, then
    /// [`Refusal::LengthsDiffer`], then [`Refusal::TooFewPairs`].
    ///
    /// ```
    /// use bazintroa::{pairs, Complex, Refusal, TransferFn};
    ///
    /// // 1 / (1 - 0.5·z^-1), at frequency 0
    /// let mut tf = TransferFn { b: [0.0; 8], a: [0.0; 8], order: 1 };
    /// tf.b[0] = 1.0;
    /// tf.a[0] = -0.5;
    /// let [mut cosines, mut sines] = [[0.0; 2]; 2];
    /// pairs(0.0, &mut cosines, &mut sines);
    /// assert_eq!(tf.eval(&cosines, &sines), Ok(Complex::new(2.0, 0.0)));
    ///
    /// assert_eq!(tf.eval(&cosines[..1], &sines[..1]), Err(Refusal::TooFewPairs));
    /// assert_eq!(tf.eval(&cosines[..1], &sines), Err(Refusal::LengthsDiffer));
    /// tf.order = 9;
    /// assert_eq!(tf.eval(&cosines[..1], &sines), Err(Refusal::WrongOrder));
    /// ```
    #[inline]
    pub fn eval(&self, cosines: &[f64], sines: &[f64]) -> Result<Complex, Refusal> {
        let mut place = [0.0; 2];
        let number =
            exported::eval_tf_complex(&self.b, &self.a, self.order, cosines, sines, &mut place);
        value(number, Complex::of_parts(place))
    }
}

/// Writes the cosine and the sine of -(`omega`·k) to place k of the lists, as far as both go, by the
/// standard library's `sin_cos`, as the Rust does wherever it evaluates. They are not proved.
///
/// ```
/// use bazintroa::pairs;
///
/// let [mut cosines, mut sines] = [[9.0; 3]; 2];
/// pairs(0.1, &mut cosines, &mut sines);
/// assert_eq!(cosines, [1.0, 0.1_f64.cos(), 0.2_f64.cos()]);
/// assert_eq!(sines, [0.0, -0.1_f64.sin(), -0.2_f64.sin()]);
/// ```
pub fn pairs(omega: f64, cosines: &mut [f64], sines: &mut [f64]) {
    for (k, (cosine, sine)) in cosines.iter_mut().zip(sines).enumerate() {
        (*sine, *cosine) = (-(omega * k as f64)).sin_cos();
    }
}
