//! A safe wrapper over the proved static library of the lost property box.
//!
//! The library plays a roster and a list of calls at a new box and gives all answers. [`respond`] is that, on text;
//! [`Session`] puts the text together and takes the answers apart.

mod raw;
mod session;

pub use raw::respond;
pub use session::{Answer, Session, SessionError};
