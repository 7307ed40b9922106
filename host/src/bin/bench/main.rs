//! Times the port against the Rust in one process. Rounds of the two sides alternate; a ratio is the
//! median over the rounds of the port's time by the other's. It prints Markdown tables.

mod arithmetic;
mod grids;
mod locus;
mod panel;
mod responses;
mod scans;
mod summaries;
mod timing;

fn main() {
    let mut tables = Vec::from(arithmetic::roots());
    tables.push(arithmetic::complex());
    tables.extend(responses::tables());
    tables.extend([locus::table(), locus::stability()]);
    tables.extend(scans::tables());
    tables.push(grids::table());
    tables.extend([summaries::feeds(), summaries::joins()]);
    tables.extend(panel::tables());
    timing::run(tables);
}
