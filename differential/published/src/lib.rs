//! The published Rust, cut at build time (cut.rs) and never stored, with shims for what is not published beside it. The only line that differs
//! is the logarithm's.
pub mod error;
pub mod qec;
pub mod sim;
pub mod weight;

#[cfg(test)]
#[path = "../cut.rs"]
mod cut;
#[cfg(test)]
#[path = "../sha256.rs"]
mod sha256;

#[cfg(test)]
mod tests {
    use super::sha256::sha256;

    #[test]
    fn digests_of_the_standard() {
        assert_eq!(sha256(b""), "e3b0c44298fc1c149afbf4c8996fb92427ae41e4649b934ca495991b7852b855");
        assert_eq!(sha256(b"abc"), "ba7816bf8f01cfea414140de5dae2223b00361a396177a9cb410ff61f20015ad");
        let two_blocks = b"abcdbcdecdefdefgefghfghighijhijkijkljklmklmnlmnomnopnopq";
        assert_eq!(sha256(two_blocks), "248d6a61d20638b8e5c026930c3e6039a33ce45964ff2167f6ecedd419db06c1");
    }

    /// Lengths on both sides of where the padding takes a block of its own.
    #[test]
    fn digests_around_a_block() {
        for (length, digest) in [
            (55, "9f4390f8d30c2dd92ec9f095b65e2b9ae9b0a925a5258e241c9f1e910f734318"),
            (56, "b35439a4ac6f0948b6d6f9e3c6af0f5f590ce20f1bde7090ef7970686ec6738a"),
            (63, "7d3e74a05d7db15bce4ad9ec0658ea98e3f06eeecf16b4c6fff2da457ddc2f34"),
            (64, "ffe054fe7ae0cb6dc65c3af9b61d5209f439851db43d0ba5997337df154668eb"),
            (119, "31eba51c313a5c08226adf18d4a359cfdfd8d2e816b13f4af952f7ea6584dcfb"),
            (120, "2f3d335432c70b580af0e8e1b3674a7c020d683aa5f73aaaedfdc55af904c21c"),
        ] {
            assert_eq!(sha256(&vec![b'a'; length]), digest, "{length}");
        }
    }

    #[test]
    fn a_changed_source_is_refused() {
        let dir = std::env::temp_dir().join(format!("published-{}", std::process::id()));
        std::fs::create_dir_all(dir.join("src/qec")).unwrap();
        std::fs::write(dir.join("src/qec/decoder.rs"), "// not the published file\n").unwrap();
        let refused = super::cut::cut(&dir, &dir).unwrap_err();
        std::fs::remove_dir_all(&dir).unwrap();
        assert!(refused.contains("has SHA-256"), "{refused}");
    }
}
