//! Messages, and the AVPs in them.

use crate::{layouts, name, raw, Format};

/// The header of a message (RFC 6733 section 3).
#[derive(Clone, Copy, Debug, PartialEq, Eq, Hash)]
pub struct Header {
    /// Message Length.
    pub length: u32,
    /// Command Flags.
    pub flags: u8,
    /// Command Code.
    pub code: u32,
    /// Application-ID.
    pub application: u32,
    /// Hop-by-Hop Identifier.
    pub hop_by_hop: u32,
    /// End-to-End Identifier.
    pub end_to_end: u32,
}

impl Header {
    /// Whether the R flag is set.
    pub fn is_request(&self) -> bool {
        self.flags & 0x80 != 0
    }

    /// Whether the P flag is set.
    pub fn is_proxiable(&self) -> bool {
        self.flags & 0x40 != 0
    }

    /// Whether the E flag is set.
    pub fn is_error(&self) -> bool {
        self.flags & 0x20 != 0
    }
}

/// The header with which the bytes begin, at least 20; `None` where no message begins so.
pub fn header(bytes: &[u8]) -> Option<Header> {
    let raw = raw::header(bytes)?;
    let flags = (raw.flags & 0xff) as u8;
    Some(Header { length: raw.length, flags, code: raw.code, application: raw.app, hop_by_hop: raw.hop, end_to_end: raw.e2e })
}

/// How many bytes the message has that begins with these, at least 20 (RFC 6733 section 3); `None` where no message begins so.
pub fn message_length(header: &[u8]) -> Option<usize> {
    raw::message_length(header).map(|length| length as usize)
}

/// The messages that follow one another in the bytes, by their Message Length. Bytes that begin none are the last, as is a message that is
/// cut.
pub fn split(bytes: &[u8]) -> impl Iterator<Item = &[u8]> {
    let mut left = bytes;
    std::iter::from_fn(move || {
        let length = message_length(left).map_or(left.len(), |length| length.min(left.len()));
        let (message, rest) = left.split_at(length);
        left = rest;
        (!message.is_empty()).then_some(message)
    })
}

/// An AVP of a message (RFC 6733 section 4.1). Offsets are in bytes from the first of the message.
#[derive(Clone, Debug, PartialEq, Eq)]
pub struct Avp<'a> {
    /// Where it begins.
    pub offset: usize,
    /// How many groups are around it.
    pub depth: usize,
    /// AVP Length: without the padding.
    pub length: usize,
    /// The AVP code.
    pub code: u32,
    /// The Vendor-ID; 0 without one.
    pub vendor: u32,
    /// AVP Flags.
    pub flags: u8,
    /// Its name, where the dictionary has it.
    pub name: Option<String>,
    /// Its data format, where the dictionary has it.
    pub format: Option<Format>,
    /// Where its data begins.
    pub data_offset: usize,
    /// Its data.
    pub data: &'a [u8],
}

impl<'a> Avp<'a> {
    pub(crate) fn of(raw: &layouts::Avp, message: &'a [u8]) -> Self {
        let is_known = raw.format != 0;
        let data = message.get(raw.data_place..).and_then(|data| data.get(..raw.data_length)).unwrap_or_default();
        Avp {
            offset: raw.place,
            depth: raw.depth,
            length: raw.length,
            code: raw.code,
            vendor: raw.vendor,
            flags: (raw.flags & 0xff) as u8,
            name: is_known.then(|| name(&raw.name, raw.name_count)),
            format: is_known.then(|| Format::of(raw.format)),
            data_offset: raw.data_place,
            data,
        }
    }
}

/// The AVPs of a message.
#[derive(Clone, Debug, PartialEq, Eq)]
pub struct Avps<'a> {
    /// The AVPs in the order of their bytes, each group that the dictionary has followed by its members.
    pub avps: Vec<Avp<'a>>,
    /// The first offset at which an AVP would have an AVP Length that no AVP can have, which ends its level alone.
    pub bad: Option<usize>,
}
