#[test]
fn lanes() {
    assert_eq!(util::lanes(), 8);
}
