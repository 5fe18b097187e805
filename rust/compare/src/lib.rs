//! Holds the proved library and the second program side by side on histories made by chance.
//!
//! A history is a row of events ([`event`]): requests, resets, questions of the media, images loaded.
//! Each is given to both ([`sides`]), and after each everything they show must be equal: number, answer,
//! the bytes of the buffer past it, the whole image, and whether it is sound.
//!
//! [`generator`] makes events by chance, from what it reads in the image ([`state`]); [`tour`],
//! [`media_tour`] and [`damage_tour`] go through some in order. [`run`] runs them, [`coverage`] counts what
//! came of them, and [`shrink`] makes the script of a difference short.

#![forbid(unsafe_code)]

mod big_endian;
pub use ::chance;
pub mod coverage;
pub mod damage_tour;
pub mod event;
pub mod generator;
pub mod media_tour;
pub mod run;
pub mod shrink;
pub mod sides;
pub mod state;
pub mod tour;
