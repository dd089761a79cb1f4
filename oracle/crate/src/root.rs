include!(concat!(env!("OUT_DIR"), "/lib.rs"));

pub mod ask;
