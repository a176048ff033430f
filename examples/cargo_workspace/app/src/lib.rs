//! A package with an optional dependency under another name.

/// The words of the package.
#[stamp::stamp]
pub fn words() -> &'static str {
    "app"
}

#[cfg(test)]
mod tests {
    #[test]
    fn one() {
        assert_eq!(super::words(), "app");
    }

    #[cfg(feature = "full")]
    #[test]
    fn two() {
        assert_eq!(helper::lanes(), if cfg!(feature = "fast") { 8 } else { 1 });
    }
}
