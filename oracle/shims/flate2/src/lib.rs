//! Name: compression is not carried over, so calling any of this is a fault of the oracle.

#[derive(Default)]
pub struct Compression;

pub mod bufread {
    use std::io::{Read, Result};

    pub struct DeflateEncoder<R>(#[allow(dead_code)] R);

    impl<R> DeflateEncoder<R> {
        pub fn new(from: R, _: super::Compression) -> Self {
            Self(from)
        }
    }

    impl<R> Read for DeflateEncoder<R> {
        fn read(&mut self, _: &mut [u8]) -> Result<usize> {
            unreachable!("a stand-in: only its name is used")
        }
    }

    pub struct DeflateDecoder<R>(#[allow(dead_code)] R);

    impl<R> DeflateDecoder<R> {
        pub fn new(from: R) -> Self {
            Self(from)
        }
    }

    impl<R> Read for DeflateDecoder<R> {
        fn read(&mut self, _: &mut [u8]) -> Result<usize> {
            unreachable!("a stand-in: only its name is used")
        }
    }
}
