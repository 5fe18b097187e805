//! The security processor of a self-encrypting card (TCG Core 2.01, Opal SSC 1.00), for Rust.
//!
//! The card itself is a proved static library; this crate makes its functions safe to call. A [`Card`]
//! takes requests, resets and questions of the media, and is kept as an image of bytes:
//!
//! ```
//! use flamepocket::{Card, Verdict};
//!
//! let mut card = Card::factory(1_000_000, b"0123456789abcdefghijklmnopqrstuv")?;
//! match card.command(b"no packet at all") {
//!     Ok(answer) => println!("{} bytes", answer.len()),
//!     Err(refusal) => assert_eq!(refusal.to_string(), "envelope broken"),
//! }
//! assert_eq!(card.read(0, 8)?, Verdict::Disk);
//! let kept = card.image().to_vec();
//! assert_eq!(Card::from_image(&kept)?, card);
//! # Ok::<(), flamepocket::Refusal>(())
//! ```
//!
//! [`ffi`] has the library's functions as they are, on images of any bytes, unsound ones too.

#![deny(unsafe_code)]

mod card;
#[allow(unsafe_code)]
pub mod ffi;
mod refusal;

pub use card::{Answer, Card, Verdict, ANSWER_ROOM};
pub use refusal::Refusal;
