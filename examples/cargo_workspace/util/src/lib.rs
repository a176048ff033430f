//! A package with a feature.

/// How many lanes there are.
pub fn lanes() -> usize {
    if cfg!(feature = "simd") { 8 } else { 1 }
}

#[test]
fn two() {
    assert!(lanes() > 0);
}
