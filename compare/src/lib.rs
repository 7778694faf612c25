//! The Rust that Mescjadro is carried over from, built from its published text.
#![allow(dead_code)]

include!(concat!(env!("OUT_DIR"), "/tree.rs"));

/// Stands in for the one module that was not published: its two types serve views that the port leaves out.
pub mod mpls {
    pub struct VideoFormat;
    pub struct FrameRate;

    impl VideoFormat {
        pub fn from_raw(_: u8) -> Self {
            VideoFormat
        }
    }

    impl FrameRate {
        pub fn from_raw(_: u8) -> Self {
            FrameRate
        }
    }
}

pub mod chance;
pub mod generate;
#[cfg(feature = "library")]
pub mod library;
pub mod lists;
pub mod numbers;
pub mod paper;
