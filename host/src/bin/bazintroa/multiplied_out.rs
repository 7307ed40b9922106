//! Whether poles give their polynomial back. That a search settled does not say that its poles are right,
//! so they are multiplied out, (z - p1)(z - p2).., and held against the polynomial.

use bazintroa::{Complex, TransferFn};

/// The most by which poles may miss a coefficient, in parts of its scale.
///
/// Single poles that are right miss by some 1e-15. Where poles fall together the search leaves them in a
/// ring about their place: four at 0.5 miss by 4e-4 and lie up to 0.002 from it, which passes; five miss
/// by 0.002 and lie 0.008 away, eight by 0.02 and 0.05 away, which does not. Poles that met in a wrong
/// place missed by 0.0078 or more in two million polynomials with coefficients from -4 to 4.
const TOLERANCE: f64 = 1e-3;

/// The loop polynomial at a gain, highest power first, as document 01 has it: without the leading
/// coefficients whose absolute value is below 2^-52.
pub fn loop_polynomial(tf: &TransferFn, gain: f64) -> Vec<f64> {
    let mut coefficients = vec![1.0 + gain * tf.b[0]];
    coefficients.extend((1..tf.order).map(|i| tf.a[i - 1] + gain * tf.b[i]));
    coefficients.push(tf.a[tf.order - 1]);
    let small = |c: &&f64| c.abs() < f64::EPSILON;
    let dropped = coefficients.iter().take_while(small).count();
    coefficients.split_off(dropped)
}

/// The most by which poles, multiplied out, miss a coefficient of the polynomial over its leading one. It
/// is in parts of the coefficient's scale: the same coefficient of (z + |p1|)(z + |p2|).., or 1 where that
/// is less. A NaN where there is nothing to compare, infinite where the number of poles is another.
pub fn miss(polynomial: &[f64], poles: &[Complex]) -> f64 {
    if poles.len() != polynomial.len().saturating_sub(1) {
        return f64::INFINITY;
    }
    let mut made = vec![Complex::from_real(1.0)];
    let mut scales = vec![1.0];
    for pole in poles {
        made.push(Complex::from_real(0.0));
        scales.push(0.0);
        for k in (1..made.len()).rev() {
            made[k] = made[k].sub(&pole.multiply(&made[k - 1]));
            scales[k] += pole.re.hypot(pole.im) * scales[k - 1];
        }
    }
    let mut most = 0.0;
    for k in 1..made.len() {
        let difference = made[k].sub(&Complex::from_real(polynomial[k] / polynomial[0]));
        let part = difference.re.hypot(difference.im) / scales[k].max(1.0);
        if part.is_nan() || scales[k].is_infinite() {
            return f64::NAN;
        }
        most = part.max(most);
    }
    most
}

/// Whether poles that miss by so much give the polynomial back. A NaN does not.
pub fn gives_back(miss: f64) -> bool {
    miss <= TOLERANCE
}

#[cfg(test)]
mod tests {
    use super::*;
    use bazintroa::{locus_point, Ending};

    /// 1, then the coefficients, as a loop without gain.
    fn monic(a: &[f64]) -> TransferFn {
        let mut tf = TransferFn {
            b: [0.0; 8],
            a: [0.0; 8],
            order: a.len(),
        };
        tf.a[..a.len()].copy_from_slice(a);
        tf
    }

    /// By how much the library's poles miss, the farthest of them from `place`, and how it ended.
    fn searched(a: &[f64], place: f64) -> (f64, f64, Ending) {
        let tf = monic(a);
        let point = locus_point(&tf, 1.0, 2, 0).unwrap();
        let poles = &point.poles[..point.count];
        let far = poles.iter().map(|p| (p.re - place).hypot(p.im));
        let far = far.fold(0.0, f64::max);
        (miss(&loop_polynomial(&tf, 0.0), poles), far, point.ending)
    }

    /// The coefficients of (z - root)^n behind the leading 1.
    fn power(root: f64, n: usize) -> Vec<f64> {
        let mut list = vec![0.0; n + 1];
        list[0] = 1.0;
        for _ in 0..n {
            for k in (1..=n).rev() {
                list[k] -= root * list[k - 1];
            }
        }
        list.split_off(1)
    }

    #[test]
    fn the_polynomial_of_a_loop() {
        let tf = TransferFn {
            b: [-0.5, 1.0, 2.0, 9.0, 0.0, 0.0, 0.0, 0.0],
            a: [3.0, 4.0, 5.0, 9.0, 0.0, 0.0, 0.0, 0.0],
            order: 3,
        };
        assert_eq!(loop_polynomial(&tf, 0.0), [1.0, 3.0, 4.0, 5.0]);
        assert_eq!(loop_polynomial(&tf, 1.0), [0.5, 4.0, 6.0, 5.0]);
        // At gain 2 the first is 0, and just beside it 2^-53 and 2^-52.
        assert_eq!(loop_polynomial(&tf, 2.0), [5.0, 8.0, 5.0]);
        let beside = 2.0 - f64::EPSILON;
        assert_eq!(loop_polynomial(&tf, beside).len(), 3);
        let beside = 2.0 - 2.0 * f64::EPSILON;
        assert_eq!(loop_polynomial(&tf, beside)[0], f64::EPSILON);
        let none = TransferFn {
            b: [-1.0; 8],
            a: [0.0; 8],
            order: 1,
        };
        assert_eq!(loop_polynomial(&none, 1.0), []);
    }

    #[test]
    fn right_poles() {
        let real = |re| Complex::from_real(re);
        assert_eq!(miss(&[], &[]), 0.0);
        assert_eq!(miss(&[3.0], &[]), 0.0);
        assert_eq!(miss(&[2.0, -1.0], &[real(0.5)]), 0.0);
        // 2(z - 3)(z + 1)(z - (1 + 2i))(z - (1 - 2i))
        let poles = [
            real(3.0),
            Complex::new(1.0, 2.0),
            real(-1.0),
            Complex::new(1.0, -2.0),
        ];
        assert_eq!(miss(&[2.0, -8.0, 12.0, -8.0, -30.0], &poles), 0.0);
        for a in [
            &[0.0, 0.0, 0.0, 0.25][..],
            &[-1.1, 0.3, 0.2, -0.1, 0.05],
            &[0.5, -0.25, 1.0, 2.0, -3.0, 0.1, 0.7, -0.9],
        ] {
            let (miss, _, _) = searched(a, 0.0);
            assert!(miss < 1e-14, "{a:?}: {miss}");
        }
        // The formula loses digits of a small pole beside a large one.
        let (miss, _, _) = searched(&[1e6, 1.0], 0.0);
        assert!(miss > 1e-6 && gives_back(miss), "{miss}");
    }

    #[test]
    fn wrong_poles() {
        // One pole twice in the place of another; one that is 1 percent too far; one that is missing.
        let real = |re| Complex::from_real(re);
        assert!(!gives_back(miss(
            &[1.0, -1.5, 0.5],
            &[real(1.0), real(1.0)]
        )));
        assert!(!gives_back(miss(&[1.0, -0.5], &[real(0.51)])));
        assert!(gives_back(miss(&[1.0, -0.5], &[real(0.5001)])));
        assert_eq!(miss(&[1.0, -0.5], &[]), f64::INFINITY);
        assert_eq!(miss(&[1.0], &[real(0.5)]), f64::INFINITY);
        // The imaginary part counts.
        assert!(!gives_back(miss(&[1.0, -0.5], &[Complex::new(0.5, 0.01)])));

        // Settled with two poles at -1, where the polynomial is 8.
        let (missed, _, ending) = searched(&[-2.0, 4.0, 2.0, 3.0], 0.0);
        assert_eq!(ending, Ending::Settled(31));
        assert!((missed - 0.4267).abs() < 1e-4, "{missed}");
        assert!(!gives_back(missed));
        // The least miss of wrong poles that turned up.
        let (missed, _, ending) = searched(&[-1.0, 2.0, 3.0, -2.0, 4.0, 2.0, 3.0, 4.0], 0.0);
        assert!(matches!(ending, Ending::Settled(_)));
        assert!((missed - 0.0078).abs() < 1e-4, "{missed}");
        assert!(!gives_back(missed));
        // Still moving.
        let (missed, _, ending) = searched(&[5.0, -1.0, 2.0, 1.0], 0.0);
        assert!(matches!(ending, Ending::Spent(_)));
        assert!(!gives_back(missed));
    }

    /// Poles that fall together lie in a ring about their place. Up to four pass.
    #[test]
    fn poles_that_fall_together() {
        for root in [-0.9, -0.5, 0.0, 0.5, 0.9, 1.0] {
            for (n, most, farthest) in [
                (2, 1e-8, 1e-7),
                (4, 6e-4, 0.003),
                (5, 0.004, 0.02),
                (6, 0.01, 0.04),
                (7, 0.02, 0.06),
                (8, 0.03, 0.08),
            ] {
                let (miss, far, ending) = searched(&power(root, n), root);
                assert!(matches!(ending, Ending::Settled(_)), "{root}, {n}");
                assert!(miss < most && far < farthest, "{root}, {n}: {miss}, {far}");
                assert_eq!(gives_back(miss), n <= 4, "{root}, {n}: {miss}");
            }
        }
        // Delays: so many poles at 0, and one at 0.9.
        for delay in 3..=7 {
            let mut a = vec![0.0; delay + 1];
            a[0] = -0.9;
            let (miss, _, _) = searched(&a, 0.0);
            assert_eq!(gives_back(miss), delay <= 4, "{delay}: {miss}");
        }
    }

    #[test]
    fn poles_that_are_not_finite() {
        let numbers = [
            0.0,
            -0.5,
            1.0,
            1e-320,
            1e154,
            1e200,
            -1.7e308,
            f64::INFINITY,
            f64::NEG_INFINITY,
            f64::NAN,
        ];
        for re in numbers {
            for im in numbers {
                for last in numbers {
                    let poles = [Complex::new(re, im), Complex::from_real(1.0)];
                    let miss = miss(&[1.0, -1.0, last], &poles);
                    let finite = re.is_finite() && im.is_finite() && last.is_finite();
                    assert!(finite || !gives_back(miss), "{re}, {im}, {last}: {miss}");
                }
            }
        }
        // Where the scale overflows there is nothing to compare.
        let far = [1.7e308, -1.7e308].map(Complex::from_real);
        assert!(miss(&[1.0, 0.0, 0.0], &far).is_nan());
        let far = Complex::new(1.3e308, 1.3e308);
        assert!(miss(&[1.0, -1.3e308], &[far]).is_nan());
        // By a formula: -(-inf / 1).
        let (miss, far, ending) = searched(&[f64::NEG_INFINITY], 0.0);
        assert_eq!((far, ending), (f64::INFINITY, Ending::Settled(0)));
        assert!(!gives_back(miss));
    }
}
