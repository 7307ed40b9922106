//! The given files once more, each followed by public wrappers of its private functions: a public
//! `call_f` calls `f` and does nothing else. Modules and names lie where the given text looks
//! for them. root_locus.rs is there twice, the second time with a line that tells the rounds of the
//! root search.

pub mod core {
    pub use oxictl::core::{scalar, transfer_fn};

    pub mod frequency_domain {
        pub use oxictl::core::frequency_domain::FreqError;

        pub mod bode {
            include!("../../oxictl/src/core/frequency_domain/bode.rs");

            pub fn call_eval_tf_at_freq<const N: usize>(
                tf: &TransferFn<f64, N>,
                omega: f64,
            ) -> (f64, f64) {
                eval_tf_at_freq(tf, omega)
            }
        }

        pub mod nyquist {
            include!("../../oxictl/src/core/frequency_domain/nyquist.rs");

            pub fn call_eval_tf_at_freq<const N: usize>(
                tf: &TransferFn<f64, N>,
                omega: f64,
            ) -> (f64, f64) {
                eval_tf_at_freq(tf, omega)
            }
        }

        pub mod root_locus {
            include!("../../oxictl/src/core/frequency_domain/root_locus.rs");

            pub fn call_compute_closed_loop_poles<const N: usize>(
                tf: &TransferFn<f64, N>,
                k: f64,
            ) -> HVec<Complex<f64>, 8> {
                compute_closed_loop_poles(tf, k)
            }
        }

        /// root_locus.rs with one line more, which build.rs puts in: at the end of each round of the
        /// search, before its check, `round_ran(_iter, max_change)`.
        pub mod root_locus_told {
            include!(concat!(env!("OUT_DIR"), "/root_locus_told.rs"));

            use std::cell::Cell;

            /// The rounds of a search.
            #[derive(Clone, Copy, Debug)]
            pub struct Rounds {
                /// How many ran.
                pub ran: usize,
                /// The largest change of the last of them.
                pub last_change: f64,
            }

            thread_local! {
                /// Of the search that ran last, if one ran.
                static ROUNDS: Cell<Option<Rounds>> = const { Cell::new(None) };
            }

            fn round_ran<S: ControlScalar>(counter: usize, max_change: S) {
                ROUNDS.set(Some(Rounds {
                    ran: counter + 1,
                    last_change: max_change.to_f64(),
                }));
            }

            /// The poles, and the rounds of the search for them, if there was one.
            pub fn call_compute_closed_loop_poles<const N: usize>(
                tf: &TransferFn<f64, N>,
                k: f64,
            ) -> (HVec<Complex<f64>, 8>, Option<Rounds>) {
                ROUNDS.set(None);
                let poles = compute_closed_loop_poles(tf, k);
                (poles, ROUNDS.take())
            }
        }

        pub mod sensitivity {
            include!("../../oxictl/src/core/frequency_domain/sensitivity.rs");

            pub fn call_eval_tf_complex<const N: usize>(
                tf: &TransferFn<f64, N>,
                omega: f64,
            ) -> Complex<f64> {
                eval_tf_complex(tf, omega)
            }
        }
    }
}
