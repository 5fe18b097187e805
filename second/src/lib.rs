//! A security processor of a self-encrypting card (TCG Core 2.01, Opal SSC 1.00), written from
//! document 01 alone, to be held side by side with another implementation of the same rules.
//!
//! The way of one command: [`Card::command`] reads the envelope (`envelope`), the tokens
//! ([`tokens`]) and the payload (`payload`), then starts a session (`session`) or runs a method
//! (`methods`, `cells`) on an object that the access rows know (`access`), and writes the answer
//! (`answer`). Resets and questions of the media are in `media`, the record and what makes it
//! sound in `record`, its bytes in `image`. [`requests`] builds what a host sends.

#![forbid(unsafe_code)]

mod access;
mod answer;
mod cells;
mod command;
mod envelope;
mod image;
mod media;
mod methods;
mod payload;
mod record;
pub mod requests;
mod session;
mod status;
pub mod tokens;
pub mod uid;

pub use command::{ANSWER_ROOM, REQUEST_LIMIT};
pub use image::IMAGE_LENGTH;
pub use media::{Ruling, SHADOW_SECTORS};
pub use record::Card;
