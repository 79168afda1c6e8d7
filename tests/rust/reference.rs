//! Documents 01 and 02 computed in the plainest way: every test of a law as the paper words it, every choice by listing.
//! It shares nothing with the library, so that a mistake here and one there are unlikely to be the same. Slow, and used on small jobs only.
pub mod bench;
pub mod job;
pub mod laws;
pub mod measure;
pub mod reasons;
pub mod rings;
pub mod search;
pub mod space;
pub mod text;
pub mod trials;
