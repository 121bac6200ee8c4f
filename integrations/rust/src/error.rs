//! Why a call fails.

use std::fmt;
use std::io;
use std::path::PathBuf;

use crate::{raw, text, TextFault, Verdict};

numbered! {
    /// The kind of a fault of a text (docs/FAULTS.md). As text it is its word in answers in JSON.
    Kind {
        /// The bytes are not UTF-8.
        NotText = 0,
        /// A token is not expected here.
        Syntax = 1,
        /// A number is out of range.
        Number = 2,
        /// A name, or the whole text, is too long.
        Limit = 3,
        /// A dictionary has too many parts.
        TooManyParts = 10,
        /// Two definitions or declarations have one name.
        DuplicateName = 11,
        /// An AVP is declared Grouped, and no group has its name.
        NoGroupFormat = 12,
        /// The header of a group is another than its declaration.
        HeaderMismatch = 13,
        /// Two AVPs have one code and vendor.
        DuplicateKey = 14,
        /// Two commands have one code, class and application.
        DuplicateCommand = 15,
        /// A rule names what is not defined.
        UndefinedName = 16,
        /// Two rules of a definition have one AVP.
        RepeatedSlot = 17,
        /// The least count of a rule is over the greatest.
        MinOverMax = 18,
        /// A required AVP has the least count 0.
        RequiredMin = 19,
        /// An optional AVP has another least count than 0.
        OptionalMin = 20,
        /// Of [`Breaking`](crate::Breaking): the first dictionary has no command.
        NoCommands = 30,
        /// Of [`Breaking`](crate::Breaking): no command of the first dictionary has a name that is asked for.
        NoCommand = 31,
    }
}

impl fmt::Display for Kind {
    fn fmt(&self, f: &mut fmt::Formatter) -> fmt::Result {
        match raw::kind_word(self.number()) {
            Some(word) => f.write_str(&text(word)),
            None => write!(f, "kind {}", self.number()),
        }
    }
}

numbered! {
    /// A field of a [`Config`](crate::Config).
    Field {
        /// Origin-Host has 1 to 255 bytes, each from `!` to `~`.
        Host = 1,
        /// And so has Origin-Realm.
        Realm = 2,
        /// Product-Name has at most 255 bytes.
        Product = 3,
        /// There are 1 to 64 addresses.
        Addresses = 4,
        /// There are 1 to 1,024 applications, each kind and number once; [`RELAY`](crate::RELAY) is one only of relays.
        Applications = 5,
    }
}

/// Why a call fails. As text it has the words of the library.
#[derive(Clone, Debug, PartialEq, Eq)]
#[non_exhaustive]
pub enum Error {
    /// The text is no dictionary: all its faults, in the order of docs/FAULTS.md.
    Dictionary(Vec<TextFault>),
    /// A table, a list of accepted lines, or the name of a command is refused.
    Input {
        /// What is wrong.
        kind: Kind,
        /// The line, from 1; 0 where the whole input is at fault. Of names of commands it is the number of the name.
        line: u32,
        /// The column, from 1, of a table; else 0.
        column: usize,
    },
    /// The bytes are no message: [`Verdict::Truncated`], [`Verdict::Trailing`], or the fault of the version or of the Message Length.
    NoMessage(Verdict),
    /// A field of a configuration is refused.
    Config(Field),
    /// Memory was refused. Nothing has changed, and the call may be tried again; a stream is [spent](Error::Spent).
    NoMemory,
    /// Memory was refused to the stream before. [`Stream::again`](crate::Stream::again) begins the next message.
    Spent,
    /// An argument has no meaning: a name that is no DiameterIdentity, offsets that don't ascend within the bytes, or a verdict of another
    /// dictionary.
    BadArgument,
    /// The installed library has this version, which is not that of the crate.
    Version(u32),
    /// Another status of the library.
    Status(u32),
}

impl Error {
    pub(crate) fn of(status: u32) -> Self {
        match status {
            raw::NO_MEMORY => Error::NoMemory,
            raw::SPENT => Error::Spent,
            raw::BAD_ARGUMENT => Error::BadArgument,
            other => Error::Status(other),
        }
    }

    pub(crate) fn of_bytes((status, verdict): raw::NoMessage) -> Self {
        match status {
            raw::REFUSED => Error::NoMessage(Verdict::of(&verdict)),
            other => Error::of(other),
        }
    }
}

impl fmt::Display for Error {
    fn fmt(&self, f: &mut fmt::Formatter) -> fmt::Result {
        let word = |status| raw::status_word(status).map_or_else(|| format!("status {status}"), text);
        match self {
            Error::Dictionary(faults) => {
                write!(f, "no dictionary")?;
                faults.first().map_or(Ok(()), |first| write!(f, ": {first}"))?;
                if faults.len() > 1 {
                    write!(f, "; and {} more", faults.len() - 1)?;
                }
                Ok(())
            }
            Error::Input { kind, line: 0, .. } => write!(f, "{kind}"),
            Error::Input { kind, line, column: 0 } => write!(f, "line {line}: {kind}"),
            Error::Input { kind, line, column } => write!(f, "{line}:{column}: {kind}"),
            Error::NoMessage(verdict) => write!(f, "no message: {verdict}"),
            Error::Config(field) => write!(f, "{field:?} is refused"),
            Error::NoMemory => f.write_str(&word(raw::NO_MEMORY)),
            Error::Spent => f.write_str(&word(raw::SPENT)),
            Error::BadArgument => f.write_str(&word(raw::BAD_ARGUMENT)),
            Error::Version(version) => write!(f, "libdia has the version {version}, and not {}", raw::ABI_VERSION),
            Error::Status(status) => f.write_str(&word(*status)),
        }
    }
}

impl std::error::Error for Error {}

/// Why [`Dictionary::open`](crate::Dictionary::open) fails.
#[derive(Debug)]
pub enum OpenError {
    /// A file can't be read.
    File(PathBuf, io::Error),
    /// The texts of the files are no dictionary.
    Text(Error),
}

impl From<Error> for OpenError {
    fn from(error: Error) -> Self {
        OpenError::Text(error)
    }
}

impl fmt::Display for OpenError {
    fn fmt(&self, f: &mut fmt::Formatter) -> fmt::Result {
        match self {
            OpenError::File(file, error) => write!(f, "{}: {error}", file.display()),
            OpenError::Text(error) => error.fmt(f),
        }
    }
}

impl std::error::Error for OpenError {}

/// Whether the library has the version of this crate.
pub(crate) fn is_right_version() -> Result<(), Error> {
    match raw::abi_version() {
        raw::ABI_VERSION => Ok(()),
        other => Err(Error::Version(other)),
    }
}
