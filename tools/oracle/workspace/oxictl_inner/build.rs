//! Writes the text of root_locus.rs with one line more, by which the root search tells each round
//! that ran. Nothing else is changed. A text without exactly one such place stops the build.

use std::path::Path;
use std::{env, fs};

const GIVEN: &str = "../oxictl/src/core/frequency_domain/root_locus.rs";

/// The loop of the search, where its largest change starts, and the end of a round, before which
/// the line comes.
const LOOP: &str = concat!(
    "    for _iter in 0..200 {\n",
    "        let mut max_change = S::ZERO;\n",
);
const END_OF_ROUND: &str = concat!(
    "        // Convergence check\n",
    "        if max_change < S::from_f64(1e-12) {\n",
    "            break;\n",
    "        }\n",
    "    }\n",
);
const LINE: &str = "        round_ran(_iter, max_change);\n";

fn main() {
    println!("cargo:rerun-if-changed=build.rs");
    println!("cargo:rerun-if-changed={GIVEN}");
    let given = fs::read_to_string(GIVEN).expect("root_locus.rs is there");
    for (once, part) in [(LOOP, "for _iter"), (END_OF_ROUND, "max_change < ")] {
        for text in [once, part] {
            let times = given.matches(text).count();
            assert_eq!(times, 1, "root_locus.rs has {text:?} {times} times");
        }
    }
    let told = given.replace(END_OF_ROUND, &format!("{LINE}{END_OF_ROUND}"));
    assert_eq!(told.len(), given.len() + LINE.len());
    let folder = env::var_os("OUT_DIR").expect("cargo names it");
    fs::write(Path::new(&folder).join("root_locus_told.rs"), told).expect("it can be written");
}
