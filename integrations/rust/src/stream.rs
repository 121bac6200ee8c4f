//! Messages that come in pieces.

use std::fmt;

use crate::raw::{self, Handle};
use crate::{Dictionary, Error, Policy, Verdict};

/// A message that comes in pieces, and after [`again`](Stream::again) the next one. It keeps its dictionary, which may be dropped.
pub struct Stream {
    handle: Handle<raw::Stream>,
}

/// What a stream took of a piece.
#[derive(Clone, Copy, Debug, PartialEq, Eq)]
pub struct Fed<'a> {
    /// The bytes after those that belong to the message.
    pub rest: &'a [u8],
    /// Whether the message takes no more.
    pub is_done: bool,
}

impl Dictionary {
    /// A message of which no byte came yet.
    pub fn stream(&self, policy: Policy) -> Result<Stream, Error> {
        let handle = raw::stream_open(self.handle(), policy.limits()).map_err(Error::of)?;
        Ok(Stream { handle })
    }
}

impl Stream {
    /// Takes the bytes of a piece that belong to the message. After [`Error::NoMemory`] the stream is [spent](Error::Spent).
    pub fn feed<'a>(&mut self, piece: &'a [u8]) -> Result<Fed<'a>, Error> {
        let fed = raw::stream_feed(&self.handle, piece).map_err(Error::of)?;
        Ok(Fed { rest: piece.get(fed.taken..).unwrap_or_default(), is_done: fed.done == 1 })
    }

    /// How many levels are open: those that began at or before the last byte taken, and end after it. None are once the message takes no
    /// more.
    pub fn levels(&self) -> Result<usize, Error> {
        raw::stream_levels(&self.handle).map_err(Error::of)
    }

    /// The verdict on all bytes that were taken: [`Verdict::Truncated`] before the end of the message. The next message begins, also after
    /// [`Error::Spent`].
    pub fn again(&mut self) -> Result<Verdict, Error> {
        raw::stream_again(&self.handle).map(|verdict| Verdict::of(&verdict)).map_err(Error::of)
    }

    /// The verdict of [`again`](Stream::again), where no other message follows.
    pub fn finish(mut self) -> Result<Verdict, Error> {
        self.again()
    }
}

impl fmt::Debug for Stream {
    fn fmt(&self, f: &mut fmt::Formatter) -> fmt::Result {
        f.debug_struct("Stream").finish_non_exhaustive()
    }
}
