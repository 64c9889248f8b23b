//! A short run of the fuzzer; `examples/fuzz.rs` runs longer ones.

use squeeze_compare::fuzz::run;

#[test]
fn short_run() {
    let report = run(150_000, 2026);
    assert!(report.differences.is_empty(), "{:?}", report.differences);
    assert_eq!(report.never_met(), []);
    assert_eq!(report.strips.never_met(), []);
    assert_eq!(report.versions.never_met(), []);
    assert_eq!(report.origins.never_met(), []);
    assert_eq!(report.marks.never_met(), []);
    assert!(report.met.iter().all(|row| row[0] > 1_000));
    assert_eq!(report.met.iter().flatten().sum::<u64>(), 150_000);
}
