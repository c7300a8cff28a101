//! A model of the queue machine, written from document 01 alone, and what checks it.

pub mod account;
pub mod answer;
pub mod check;
pub mod client;
pub mod compared;
pub mod coverage;
pub mod cut_picture;
pub mod drawing;
pub mod fates;
pub mod images;
pub mod machine;
pub mod memory;
pub mod picture;
pub mod play;
pub mod random;
pub mod recovery;
pub mod rows;
pub mod sound;
pub mod text;
