//! Dictionaries, and checks of messages.

use std::fmt;
use std::path::Path;

use crate::error::is_right_version;
use crate::raw::{self, Handle};
use crate::{layouts, name, text, Avp, Avps, Error, Kind, OpenError, Policy, Verdict};

numbered! {
    /// The class of the messages of a command (RFC 6733 section 3).
    Class {
        /// The R flag is set, and E is clear.
        Request = 0,
        /// Both are clear.
        Answer = 1,
        /// R is clear, and E is set: the error messages of all commands (section 7.2).
        ErrorMessage = 2,
    }
}

numbered! {
    /// What the P flag of the messages of a command may be.
    Proxiable {
        /// It is clear.
        Clear = 0,
        /// It is set.
        Set = 1,
        /// It is clear or set.
        Either = 2,
    }
}

numbered! {
    /// What the M flag of an AVP may be.
    Mandatory {
        /// It is clear or set.
        Any = 0,
        /// It is set.
        Must = 1,
        /// It is clear.
        MustNot = 2,
    }
}

numbered! {
    /// A data format of docs/FORMATS.md.
    #[allow(missing_docs)]
    Format {
        OctetString = 1,
        Integer32 = 2,
        Integer64 = 3,
        Unsigned32 = 4,
        Unsigned64 = 5,
        Float32 = 6,
        Float64 = 7,
        Grouped = 8,
        Address = 9,
        Time = 10,
        Utf8String = 11,
        DiameterIdentity = 12,
        DiameterUri = 13,
        Enumerated = 14,
        IpFilterRule = 15,
        QosFilterRule = 16,
    }
}

numbered! {
    /// By which definition an answer is made (docs/FORMATS.md).
    Form {
        /// The command's own answer.
        Own = 1,
        /// The error message of the dictionary.
        Error = 2,
        /// The error message of RFC 6733.
        Base = 3,
    }
}

/// A command of a dictionary (RFC 6733 section 3.2).
#[derive(Clone, Debug, PartialEq, Eq)]
pub struct Command {
    /// Its name.
    pub name: String,
    /// Its number in [`Verdict::Valid`].
    pub number: u32,
    /// The Command Code; 0 of [`Class::ErrorMessage`].
    pub code: u32,
    /// The class of its messages.
    pub class: Class,
    /// What the P flag of its messages may be.
    pub proxiable: Proxiable,
    /// The Application-ID; `None` where it is of all applications that no other command of its code and class names.
    pub application: Option<u32>,
}

/// An AVP of a dictionary.
#[derive(Clone, Debug, PartialEq, Eq)]
pub struct Entry {
    /// Its name.
    pub name: String,
    /// Its code.
    pub code: u32,
    /// Its Vendor-ID; 0 without one.
    pub vendor: u32,
    /// The format of its data.
    pub format: Format,
    /// What its M flag may be.
    pub mandatory: Mandatory,
}

/// A fault of the text of a dictionary. As text it is its position, the word of its kind, and its names.
#[derive(Clone, Debug, PartialEq, Eq)]
pub struct TextFault {
    /// What is wrong.
    pub kind: Kind,
    /// The line and the column, from 1; `None` where the text has the fault as a whole.
    pub position: Option<(usize, usize)>,
    /// The definition or the AVP that has the fault, or "".
    pub name: String,
    /// The AVP of the rule that has it, or "".
    pub slot: String,
}

impl fmt::Display for TextFault {
    fn fmt(&self, f: &mut fmt::Formatter) -> fmt::Result {
        if let Some((line, column)) = self.position {
            write!(f, "{line}:{column}: ")?;
        }
        write!(f, "{}", self.kind)?;
        [&self.name, &self.slot].into_iter().filter(|name| !name.is_empty()).try_for_each(|name| write!(f, " {name}"))
    }
}

/// What becomes of a request.
#[derive(Clone, Debug, PartialEq, Eq)]
pub struct Answer {
    /// The answer that reports the first fault of the request, and its form; `None` where there is none.
    pub message: Option<(Vec<u8>, Form)>,
    /// The verdict on the request.
    pub verdict: Verdict,
}

/// A dictionary: of a text (docs/FORMATS.md), or the built-in one of RFC 6733.
pub struct Dictionary {
    handle: Handle<raw::Dict>,
}

impl Dictionary {
    /// The dictionary of a text. Texts of several files are one dictionary if they follow each other. A text that is none gives
    /// [`Error::Dictionary`].
    pub fn new(text: impl AsRef<[u8]>) -> Result<Self, Error> {
        is_right_version()?;
        let text = text.as_ref();
        let handle = raw::dict_open(text).map_err(|status| refusal(status, text))?;
        Ok(Dictionary { handle })
    }

    /// The dictionary of the texts of these files, in their order, each on lines of its own. Lines of its faults count through all of them.
    pub fn open<P: AsRef<Path>>(files: impl IntoIterator<Item = P>) -> Result<Self, OpenError> {
        let mut joined = Vec::new();
        for file in files {
            if joined.last().is_some_and(|last| *last != b'\n') {
                joined.push(b'\n');
            }
            let text = std::fs::read(&file).map_err(|error| OpenError::File(file.as_ref().into(), error))?;
            joined.extend(text);
        }
        Ok(Self::new(joined)?)
    }

    /// The dictionary of RFC 6733.
    pub fn base() -> Result<Self, Error> {
        is_right_version()?;
        let handle = raw::dict_open_base().map_err(Error::of)?;
        Ok(Dictionary { handle })
    }

    /// The same dictionary, for another thread. It takes little time and memory.
    pub fn share(&self) -> Result<Self, Error> {
        let handle = raw::dict_share(&self.handle).map_err(Error::of)?;
        Ok(Dictionary { handle })
    }

    /// The commands, in the order of the dictionary.
    pub fn commands(&self) -> Result<Vec<Command>, Error> {
        let found = raw::commands(&self.handle).map_err(Error::of)?;
        Ok(found.iter().map(command_of).collect())
    }

    /// The AVPs: those that are declared, in their order, and then groups without a declaration.
    pub fn entries(&self) -> Result<Vec<Entry>, Error> {
        let found = raw::entries(&self.handle).map_err(Error::of)?;
        Ok(found.iter().map(entry_of).collect())
    }

    /// The name of the command of a verdict of this dictionary.
    pub fn command_name(&self, number: u32) -> Option<String> {
        raw::command_name(&self.handle, number).ok().map(text)
    }

    /// The name of the AVP with a code and a Vendor-ID, which is 0 for none.
    pub fn avp_name(&self, code: u32, vendor: u32) -> Option<String> {
        raw::avp_name(&self.handle, code, vendor).ok().map(text)
    }

    /// Checks the bytes of one message.
    pub fn check(&self, message: &[u8], policy: Policy) -> Result<Verdict, Error> {
        let verdict = raw::check(&self.handle, policy.limits(), message).map_err(Error::of)?;
        Ok(Verdict::of(&verdict))
    }

    /// Checks the messages that follow one another in the bytes, and end at these offsets, which ascend.
    pub fn check_many(&self, bytes: &[u8], ends: &[usize], policy: Policy) -> Result<Vec<Verdict>, Error> {
        let found = raw::check_many(&self.handle, policy.limits(), bytes, ends).map_err(Error::of)?;
        Ok(found.iter().map(Verdict::of).collect())
    }

    /// The line that `diacmd check --json` writes of a message (docs/JSON.md).
    pub fn check_json(&self, message: &[u8], policy: Policy) -> Result<String, Error> {
        raw::check_json(&self.handle, policy.limits(), message).map(text).map_err(Error::of)
    }

    /// The line that `diacmd check` writes of a verdict of this dictionary.
    pub fn describe(&self, verdict: &Verdict) -> Result<String, Error> {
        raw::verdict_text(&self.handle, &verdict.raw()).map(text).map_err(Error::of)
    }

    /// Makes the answer of these names, Origin-Host and Origin-Realm, that reports the first fault of a request (RFC 6733 sections 6.2 and
    /// 7). There is none where the message is valid, or no whole request.
    pub fn answer(&self, message: &[u8], host: &str, realm: &str, policy: Policy) -> Result<Answer, Error> {
        let made = raw::answer(&self.handle, policy.limits(), host.as_bytes(), realm.as_bytes(), message);
        let (message, verdict) = made.map_err(Error::of)?;
        Ok(Answer { message: message.map(|(bytes, form)| (bytes, Form::of(form))), verdict: Verdict::of(&verdict) })
    }

    /// The AVPs of a message, which need not be valid.
    pub fn avps<'a>(&self, message: &'a [u8]) -> Result<Avps<'a>, Error> {
        let (found, bad) = raw::avps(&self.handle, message).map_err(Error::of_bytes)?;
        let avps = found.iter().map(|avp| Avp::of(avp, message)).collect();
        Ok(Avps { avps, bad: (bad < message.len()).then_some(bad) })
    }

    /// The first AVP of a message that has this code and this vendor, 0 for none, and is in no group.
    pub fn find<'a>(&self, message: &'a [u8], code: u32, vendor: u32) -> Result<Option<Avp<'a>>, Error> {
        let found = raw::avp_find(&self.handle, message, code, vendor).map_err(Error::of_bytes)?;
        Ok(found.map(|avp| Avp::of(&avp, message)))
    }

    /// The AVPs of a message that hold the byte at an offset, the outermost first: of a fault's offset the groups around its AVP, and this
    /// AVP.
    pub fn avps_at<'a>(&self, message: &'a [u8], offset: usize) -> Result<Vec<Avp<'a>>, Error> {
        let found = raw::avps_at(&self.handle, message, offset).map_err(Error::of_bytes)?;
        Ok(found.iter().map(|avp| Avp::of(avp, message)).collect())
    }

    /// The lines that `diacmd show` writes of a message, and whether they are all: an AVP Length that no AVP can have ends them.
    pub fn show(&self, message: &[u8]) -> Result<(String, bool), Error> {
        raw::show(&self.handle, message).map(|(lines, is_whole)| (text(lines), is_whole)).map_err(Error::of_bytes)
    }

    pub(crate) fn handle(&self) -> &Handle<raw::Dict> {
        &self.handle
    }
}

impl fmt::Debug for Dictionary {
    fn fmt(&self, f: &mut fmt::Formatter) -> fmt::Result {
        f.debug_struct("Dictionary").finish_non_exhaustive()
    }
}

fn command_of(raw: &layouts::Command) -> Command {
    Command {
        name: name(&raw.name, raw.name_count),
        number: raw.command,
        code: raw.code,
        class: Class::of(raw.kind),
        proxiable: Proxiable::of(raw.proxy),
        application: (raw.has_app == 1).then_some(raw.app),
    }
}

fn entry_of(raw: &layouts::Entry) -> Entry {
    Entry {
        name: name(&raw.name, raw.name_count),
        code: raw.code,
        vendor: raw.vendor,
        format: Format::of(raw.format),
        mandatory: Mandatory::of(raw.mandatory),
    }
}

/// Why a text is refused as a dictionary.
fn refusal(status: u32, text: &[u8]) -> Error {
    match status {
        raw::REFUSED => faults(text).map_or_else(|error| error, Error::Dictionary),
        other => Error::of(other),
    }
}

/// All faults of the text of a dictionary, in the order of docs/FAULTS.md; none where it is one. Each line is counted from the start of the
/// text.
pub fn faults(text: impl AsRef<[u8]>) -> Result<Vec<TextFault>, Error> {
    let text = text.as_ref();
    let found = raw::faults(text).map_err(Error::of)?;
    let fault_of = |raw: &layouts::Fault| TextFault {
        kind: Kind::of(raw.kind),
        position: (raw.has_place == 1).then(|| raw::line_column(text, raw.at)),
        name: name(&raw.name, raw.name_count),
        slot: name(&raw.slot, raw.slot_count),
    };
    Ok(found.iter().map(fault_of).collect())
}

/// The text in canonical form, as `diacmd render` writes it. Its definitions need not fit together. A text that the grammar doesn't derive
/// gives [`Error::Dictionary`].
pub fn render(source: impl AsRef<[u8]>) -> Result<String, Error> {
    raw::render(source.as_ref()).map(text).map_err(|status| refusal(status, source.as_ref()))
}
