//! Dictionaries of Diameter (RFC 6733), checks of messages, what breaks between two dictionaries, and connections, over `libdia`, whose
//! functions are proved.
//!
//! ```
//! use wittalen::{Dictionary, Policy};
//!
//! # fn main() -> Result<(), wittalen::Error> {
//! let dictionary = Dictionary::new("%avp Usage 9002 Unsigned32 any\n<Report> ::= < Diameter Header: 302, REQ > { Usage }")?;
//! // a header without AVPs
//! let message = [1, 0, 0, 20, 0x80, 0, 1, 46, 0, 0, 0, 0, 0, 0, 0, 1, 0, 0, 0, 2];
//! let verdict = dictionary.check(&message, Policy::default())?;
//! assert_eq!(dictionary.describe(&verdict)?, "fault 5005 at 20 missing Usage");
//! # Ok(())
//! # }
//! ```
//!
//! Texts of dictionaries have the notation of `docs/FORMATS.md`, and connections are those of `docs/CONNECTION.md`.
//!
//! A [`Dictionary`], a [`Stream`] and a [`Peer`] may go to another thread, and none is used by two threads at once: they are `Send` and
//! not `Sync`. Give each thread a dictionary of its own by [`Dictionary::share`], which takes no time:
//!
//! ```
//! use wittalen::{Dictionary, Policy};
//!
//! # fn main() -> Result<(), wittalen::Error> {
//! let (dictionary, message) = (Dictionary::base()?, [0; 20]);
//! let shared = dictionary.share()?;
//! std::thread::spawn(move || shared.check(&message, Policy::default())).join().unwrap()?;
//! # Ok(())
//! # }
//! ```
//!
//! ```compile_fail,E0277
//! let dictionary = wittalen::Dictionary::base().unwrap();
//! std::thread::scope(|scope| { scope.spawn(|| dictionary.commands()); });
//! ```

/// An enum of the numbers that dia.h has for something.
macro_rules! numbered {
    ($(#[$about:meta])* $name:ident { $($(#[$says:meta])* $variant:ident = $number:literal),+ $(,)? }) => {
        $(#[$about])*
        #[derive(Clone, Copy, Debug, PartialEq, Eq, Hash)]
        #[non_exhaustive]
        pub enum $name {
            $($(#[$says])* $variant,)+
            /// A number of a later library.
            Other(u32),
        }

        impl $name {
            pub(crate) fn of(number: u32) -> Self {
                match number {
                    $($number => Self::$variant,)+
                    other => Self::Other(other),
                }
            }

            /// Its number in dia.h.
            pub fn number(self) -> u32 {
                match self {
                    $(Self::$variant => $number,)+
                    Self::Other(other) => other,
                }
            }
        }
    };
}

mod dictionary;
mod error;
mod layouts;
mod message;
mod peer;
mod raw;
mod stream;
mod upgrade;
mod verdict;

pub use dictionary::{faults, render, Answer, Class, Command, Dictionary, Entry, Form, Format, Mandatory, Proxiable, TextFault};
pub use error::{Error, Field, Kind, OpenError};
pub use message::{header, message_length, split, Avp, Avps, Header};
pub use peer::{quiet_time, Application, Cause, Config, Modes, Output, Peer, Role, State, Timer, Why, RELAY};
pub use stream::{Fed, Stream};
pub use upgrade::{compare, explain, Breaking, Comparison, Sends, Upgrade};
pub use verdict::{Fault, Policy, Reason, Subject, Unknown, Verdict};

/// The text of bytes that the library writes, which are UTF-8.
fn text(bytes: Vec<u8>) -> String {
    String::from_utf8(bytes).unwrap_or_else(|error| String::from_utf8_lossy(error.as_bytes()).into_owned())
}

/// A name in a struct of the library, of which this many bytes are written.
fn name(bytes: &[u8], count: usize) -> String {
    String::from_utf8_lossy(&bytes[..count.min(bytes.len())]).into_owned()
}
