//! The panel's entries, against the port's list scans and against the Rust.

use crate::scans::{bits, of_option, Sweeps};
use crate::timing::{Row, Table, TARGET};
use bazintroa::{gain_crossover_frequency, panel, phase_crossover_frequency};
use oxictl::core::frequency_domain as rust;
use std::hint::black_box;
use vectors::scans::bode_data;

const N: usize = 4096;
/// The largest ratio to the list scan that is aimed at.
const LIST_TARGET: f64 = 1.5;

/// What an entry found, as the bits of an optional number.
fn found(entry: fn(&[u8], &mut [u8]) -> u32, readings: &[u8]) -> u64 {
    let mut answer = [0; 8];
    match entry(readings, &mut answer) {
        0 => u64::from_le_bytes(answer),
        100 => of_option(None),
        number => panic!("it is refused with {number}"),
    }
}

pub fn tables() -> [Table<'static>; 2] {
    let [mut by_list, mut by_rust] = [Vec::new(), Vec::new()];
    for (case, lists) in Sweeps::new::<N>().bode() {
        let bytes: Vec<u8> = (0..N)
            .flat_map(|i| lists.map(|list| list[i].to_le_bytes()))
            .flatten()
            .collect();
        let bytes: &[u8] = bytes.leak();
        let data: &_ = Box::leak(Box::new(bode_data::<N>(lists)));
        let gain = move || found(panel::gain_crossover, black_box(bytes));
        let phase = move || found(panel::phase_crossover, black_box(bytes));
        by_list.push(Row::new("panel_gain_crossover", case, N, gain, move || {
            let [omega, db, phase] = *black_box(&lists);
            bits(gain_crossover_frequency(omega, db, phase))
        }));
        by_list.push(Row::new(
            "panel_phase_crossover",
            case,
            N,
            phase,
            move || {
                let [omega, db, phase] = *black_box(&lists);
                bits(phase_crossover_frequency(omega, db, phase))
            },
        ));
        by_rust.push(Row::new("panel_gain_crossover", case, N, gain, move || {
            of_option(rust::gain_crossover_frequency(black_box(data)))
        }));
        by_rust.push(Row::new(
            "panel_phase_crossover",
            case,
            N,
            phase,
            move || of_option(rust::phase_crossover_frequency(black_box(data))),
        ));
    }
    [
        Table {
            title: "The panel on the bytes of 4,096 readings, against the port's list scan",
            of: "a reading",
            other: Some(("list scan", LIST_TARGET)),
            rows: by_list,
        },
        Table {
            title: "The panel on the bytes of 4,096 readings, against the Rust",
            of: "a reading",
            other: Some(("Rust", TARGET)),
            rows: by_rust,
        },
    ]
}
