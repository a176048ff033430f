//! A package for one platform.

#[test]
fn four() {}
