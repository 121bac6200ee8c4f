//! One end of a connection (RFC 6733 section 5; docs/CONNECTION.md), without a socket and a clock.

use std::collections::hash_map::RandomState;
use std::fmt;
use std::hash::{BuildHasher, Hasher};
use std::net::{IpAddr, Ipv4Addr};
use std::time::{Duration, SystemTime, UNIX_EPOCH};

use crate::error::is_right_version;
use crate::raw::{self, Handle};
use crate::{layouts, Error, Field};

/// The Application-ID of relays (RFC 6733 section 2.4).
pub const RELAY: u32 = u32::MAX;

/// The end of a transport connection.
#[derive(Clone, Copy, Debug, PartialEq, Eq, Hash)]
pub enum Role {
    /// It opened the transport connection.
    Initiator,
    /// It accepted it.
    Responder,
}

numbered! {
    /// The state of a connection.
    State {
        /// Nothing was sent.
        Idle = 0,
        /// A CER was sent.
        WaitCea = 1,
        /// A CER is to come.
        WaitCer = 2,
        /// Messages of applications are exchanged.
        Open = 3,
        /// A DPR was sent.
        WaitDpa = 4,
        /// It is over for good.
        Closed = 5,
    }
}

numbered! {
    /// Why a connection is given up: a value of Disconnect-Cause (RFC 6733 section 5.4.3).
    Cause {
        /// The end will be back.
        Rebooting = 0,
        /// It has too much to do.
        Busy = 1,
        /// It doesn't want this connection.
        DoNotWant = 2,
    }
}

numbered! {
    /// Why an end closes the connection.
    Why {
        /// What came is no message, or no valid one of the commands of connections.
        Invalid = 0,
        /// The two ends have no application in common.
        NoCommon = 1,
        /// The other end refuses.
        Refused = 2,
        /// A DWR was not answered in time.
        Watchdog = 3,
        /// The other end did not answer in time.
        Timeout = 4,
        /// A DPR came.
        PeerStopped = 5,
        /// This end was stopped.
        Stopped = 6,
    }
}

numbered! {
    /// What the timer of a connection does after an event.
    Timer {
        /// No tick is due.
        Off = 0,
        /// It restarts, with the time of a watchdog ([`quiet_time`]).
        Quiet = 1,
        /// It restarts, with the time in which the other end is to answer: 10 to 30 seconds.
        Reply = 2,
        /// It runs on.
        Keep = 3,
    }
}

/// An application that an end advertises.
#[derive(Clone, Copy, Debug, PartialEq, Eq, Hash)]
pub struct Application {
    /// The Application-ID.
    pub id: u32,
    /// Whether it is that of an Acct-Application-Id, and not of an Auth-Application-Id.
    pub is_accounting: bool,
    /// The Vendor-Id beside it, in a Vendor-Specific-Application-Id.
    pub vendor: Option<u32>,
}

impl Application {
    /// The application of an Auth-Application-Id.
    pub fn auth(id: u32) -> Self {
        Application { id, is_accounting: false, vendor: None }
    }

    /// The application of an Acct-Application-Id.
    pub fn accounting(id: u32) -> Self {
        Application { id, is_accounting: true, vendor: None }
    }

    fn raw(&self) -> layouts::App {
        let (has_vendor, vendor) = self.vendor.map_or((0, 0), |vendor| (1, vendor));
        layouts::App { is_acct: self.is_accounting.into(), id: self.id, has_vendor, vendor }
    }
}

/// The modes of an end.
#[derive(Clone, Copy, Debug, Default, PartialEq, Eq, Hash)]
pub struct Modes {
    /// [`RELAY`] means all applications.
    pub relays: bool,
    /// A request that is no valid message is answered with its fault before the close.
    pub answers: bool,
    /// A watchdog without answer makes the connection suspect before it closes it (RFC 3539 section 3.4.1).
    pub life: bool,
    /// What the other end says of itself is kept, for [`Peer::host`] and the calls after it.
    pub values: bool,
}

/// What an end says of itself, and its modes.
#[derive(Clone, Debug, PartialEq, Eq)]
pub struct Config {
    /// Origin-Host.
    pub host: String,
    /// Origin-Realm.
    pub realm: String,
    /// Product-Name.
    pub product: String,
    /// Host-IP-Address.
    pub addresses: Vec<IpAddr>,
    /// Vendor-Id.
    pub vendor: u32,
    /// The applications that the end advertises.
    pub applications: Vec<Application>,
    /// Origin-State-Id, which isn't sent where it is `None`.
    pub state_id: Option<u32>,
    /// The Hop-by-Hop and End-to-End Identifiers of the first request; at random where it is `None`.
    pub identifiers: Option<(u32, u32)>,
    /// The modes.
    pub modes: Modes,
}

impl Config {
    /// An end with a host, a realm and applications, the address 127.0.0.1, and no mode.
    pub fn new(host: &str, realm: &str, applications: &[Application]) -> Self {
        Config {
            host: host.into(),
            realm: realm.into(),
            product: "Wittalen".into(),
            addresses: vec![Ipv4Addr::LOCALHOST.into()],
            vendor: 0,
            applications: applications.into(),
            state_id: None,
            identifiers: None,
            modes: Modes::default(),
        }
    }

    fn manner(&self) -> u32 {
        let modes = [self.modes.relays, self.modes.answers, self.modes.life, self.modes.values];
        modes.into_iter().enumerate().map(|(bit, is_set)| u32::from(is_set) << bit).sum()
    }

    fn numbers(&self) -> layouts::Numbers {
        let (has_state_id, state_id) = self.state_id.map_or((0, 0), |id| (1, id));
        let (hop, e2e) = self.identifiers.unwrap_or_else(identifiers_at_random);
        layouts::Numbers { vendor: self.vendor, has_state_id, state_id, hop, e2e }
    }
}

/// A number at random, by which the standard library keys its maps.
fn drawn() -> u64 {
    RandomState::new().build_hasher().finish()
}

/// The End-to-End Identifier begins with the time (RFC 6733 section 3).
fn identifiers_at_random() -> (u32, u32) {
    let seconds = SystemTime::now().duration_since(UNIX_EPOCH).map_or(0, |time| time.as_secs());
    (drawn() as u32, (seconds as u32) << 20 | drawn() as u32 & 0xf_ffff)
}

fn ip_of(address: &IpAddr) -> layouts::Ip {
    match address {
        IpAddr::V4(address) => {
            let mut bytes = [0; 16];
            bytes[..4].copy_from_slice(&address.octets());
            layouts::Ip { is_v6: 0, bytes }
        }
        IpAddr::V6(address) => layouts::Ip { is_v6: 1, bytes: address.octets() },
    }
}

/// What an end asks for.
#[derive(Clone, Debug, PartialEq, Eq)]
pub enum Output {
    /// To send these bytes, which are one message.
    Send(Vec<u8>),
    /// To close the transport connection, after what was to be sent.
    Close(Why),
}

const START: u32 = 0;
const BYTES: u32 = 1;
const TICK: u32 = 2;
const STOP: u32 = 3;
const LOST: u32 = 4;
const HOST: u32 = 0;
const REALM: u32 = 1;
const PRODUCT: u32 = 2;
const RESULT: u32 = 3;
const CAUSE: u32 = 4;

/// One end of a connection. Each event returns what is to be done, in order. After a reconnection make another.
pub struct Peer {
    handle: Handle<raw::Peer>,
    timer: Timer,
    /// Outputs of an event that failed after them.
    left: Vec<Output>,
}

impl Peer {
    /// An end that is idle. A refused field gives [`Error::Config`].
    pub fn new(role: Role, config: &Config) -> Result<Self, Error> {
        is_right_version()?;
        let addresses: Vec<_> = config.addresses.iter().map(ip_of).collect();
        let apps: Vec<_> = config.applications.iter().map(Application::raw).collect();
        let opening = raw::Opening {
            role: if role == Role::Initiator { 0 } else { 1 },
            manner: config.manner(),
            host: config.host.as_bytes(),
            realm: config.realm.as_bytes(),
            product: config.product.as_bytes(),
            addresses: &addresses,
            apps: &apps,
            numbers: config.numbers(),
        };
        let handle = raw::peer_open(&opening).map_err(|(status, field)| match status {
            raw::REFUSED => Error::Config(Field::of(field)),
            other => Error::of(other),
        })?;
        Ok(Peer { handle, timer: Timer::Off, left: Vec::new() })
    }

    /// The transport connection is there.
    pub fn start(&mut self) -> Result<Vec<Output>, Error> {
        self.event(START, &[], 0)
    }

    /// One whole message came; [`message_length`](crate::message_length) says where it ends. Messages of applications are ignored: report
    /// them by [`heard`](Peer::heard).
    pub fn receive(&mut self, message: &[u8]) -> Result<Vec<Output>, Error> {
        self.event(BYTES, message, 0)
    }

    /// The timer of the connection expired.
    pub fn tick(&mut self) -> Result<Vec<Output>, Error> {
        self.event(TICK, &[], 0)
    }

    /// The connection is to be given up.
    pub fn stop(&mut self, cause: Cause) -> Result<Vec<Output>, Error> {
        self.event(STOP, &[], cause.number())
    }

    /// The transport connection is gone.
    pub fn lost(&mut self) -> Result<Vec<Output>, Error> {
        self.event(LOST, &[], 0)
    }

    fn event(&mut self, event: u32, message: &[u8], cause: u32) -> Result<Vec<Output>, Error> {
        self.take_outputs()?;
        let before = raw::peer_state(&self.handle).map_err(Error::of)?;
        raw::peer_event(&self.handle, event, message, cause).map_err(Error::of)?;
        let after = raw::peer_state(&self.handle).map_err(Error::of)?;
        self.timer = Timer::of(raw::peer_timer(before, event, after).map_err(Error::of)?);
        self.take_outputs()?;
        Ok(std::mem::take(&mut self.left))
    }

    fn take_outputs(&mut self) -> Result<(), Error> {
        loop {
            match raw::peer_output(&self.handle) {
                Ok(raw::Output::Send(bytes)) => self.left.push(Output::Send(bytes)),
                Ok(raw::Output::Close(why)) => self.left.push(Output::Close(Why::of(why))),
                Err(raw::NONE) => return Ok(()),
                Err(status) => return Err(Error::of(status)),
            }
        }
    }

    /// What the timer of the connection does after the last event.
    pub fn timer(&self) -> Timer {
        self.timer
    }

    /// The state of the connection.
    pub fn state(&self) -> Result<State, Error> {
        raw::peer_state(&self.handle).map(State::of).map_err(Error::of)
    }

    /// The applications that both ends have, once the connection was open: those for authentication first, by number.
    pub fn common(&self) -> Result<Vec<Application>, Error> {
        let mut found = Vec::new();
        loop {
            match raw::peer_common(&self.handle, found.len()) {
                Ok(app) => found.push(Application { id: app.id, is_accounting: app.is_acct == 1, vendor: None }),
                Err(raw::NONE) => return Ok(found),
                Err(status) => return Err(Error::of(status)),
            }
        }
    }

    /// Whether messages of an application are for this connection.
    pub fn serves(&self, application: u32) -> Result<bool, Error> {
        raw::peer_serves(&self.handle, application).map_err(Error::of)
    }

    /// The next Hop-by-Hop and End-to-End Identifiers, for a request of the caller's own. The end doesn't use them.
    pub fn take_identifiers(&mut self) -> Result<(u32, u32), Error> {
        raw::peer_identifiers(&self.handle).map_err(Error::of)
    }

    /// Reports a message of an application, a sign of life.
    pub fn heard(&mut self) -> Result<(), Error> {
        raw::peer_heard(&self.handle).map_err(Error::of)
    }

    /// Whether a watchdog is unanswered: then new requests are better sent elsewhere.
    pub fn suspect(&self) -> Result<bool, Error> {
        raw::peer_suspect(&self.handle).map_err(Error::of)
    }

    /// The Origin-Host of the other end; `None` before it has said it, and without [`Modes::values`].
    pub fn host(&self) -> Result<Option<String>, Error> {
        self.text(HOST)
    }

    /// Its Origin-Realm, as [`host`](Peer::host).
    pub fn realm(&self) -> Result<Option<String>, Error> {
        self.text(REALM)
    }

    /// Its Product-Name, as [`host`](Peer::host).
    pub fn product(&self) -> Result<Option<String>, Error> {
        self.text(PRODUCT)
    }

    /// The Result-Code of its answer to the CER of this end.
    pub fn result(&self) -> Result<Option<u32>, Error> {
        self.number(RESULT)
    }

    /// The Disconnect-Cause of its DPR.
    pub fn cause(&self) -> Result<Option<Cause>, Error> {
        Ok(self.number(CAUSE)?.map(Cause::of))
    }

    fn text(&self, which: u32) -> Result<Option<String>, Error> {
        Ok(self.value(which)?.map(crate::text))
    }

    fn number(&self, which: u32) -> Result<Option<u32>, Error> {
        let value = self.value(which)?;
        Ok(value.and_then(|bytes| bytes.try_into().ok()).map(u32::from_be_bytes))
    }

    fn value(&self, which: u32) -> Result<Option<Vec<u8>>, Error> {
        match raw::peer_value(&self.handle, which) {
            Ok(value) => Ok(Some(value)),
            Err(raw::NONE) => Ok(None),
            Err(status) => Err(Error::of(status)),
        }
    }
}

impl fmt::Debug for Peer {
    fn fmt(&self, f: &mut fmt::Formatter) -> fmt::Result {
        f.debug_struct("Peer").field("timer", &self.timer).finish_non_exhaustive()
    }
}

/// How long a connection may be quiet before a watchdog: `tw`, raised to 6 seconds if lower, plus or minus up to 2 seconds at random
/// (RFC 3539 section 3.4.1).
pub fn quiet_time(tw: Duration) -> Duration {
    let milliseconds = u32::try_from(tw.as_millis()).unwrap_or(u32::MAX);
    Duration::from_millis(raw::peer_quiet_ms(milliseconds, drawn() as u32))
}
