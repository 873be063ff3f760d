//! Inputs for comparisons: random cases and frames, data sets to be timed,
//! and data sets from DICOM files. Nothing here needs the archive.

#![forbid(unsafe_code)]

pub mod cases;
pub mod coding;
pub mod damage;
pub mod data_sets;
pub mod digests;
pub mod frames;
pub mod part10;
pub mod random;
pub mod signatures;
pub mod tag_lists;
pub mod workloads;
