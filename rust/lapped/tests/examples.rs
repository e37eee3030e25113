//! The examples in Rust, run.

mod roundtrip {
    include!("../examples/roundtrip.rs");

    #[test]
    fn runs() {
        assert_eq!(main(), Ok(()));
    }
}
