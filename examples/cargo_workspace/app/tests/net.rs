#[test]
fn get() {
    assert_eq!(app::words().len(), 3);
}
