//! The calls of dia.h, and functions over them that are safe for all arguments. The crate has no other unsafe code.
//!
//! Each function keeps what dia.h says that a program owes: pointers are those of slices and of values, so none is null or misaligned, and
//! none that is written overlaps another argument; a handle begins as zero bytes, is moved as bytes, and is closed once; and it isn't
//! `Sync`, so no two calls on it overlap, since no call calls back.
#![allow(unsafe_code)]

use std::cell::UnsafeCell;
use std::marker::PhantomData;
use std::mem::size_of;
use std::ptr::null_mut;

use crate::layouts::{
    App, Avp, Command, Entry, Fault, Fed, Head, Ip, Numbers, PeerOptions, Problem, RawHandle, Verdict, MAX_NAME,
};

pub const ABI_VERSION: u32 = 1;
pub const OK: u32 = 0;
pub const REFUSED: u32 = 1;
pub const NONE: u32 = 2;
pub const NO_MEMORY: u32 = 3;
pub const NO_ROOM: u32 = 4;
pub const BAD_ARGUMENT: u32 = 7;
pub const SPENT: u32 = 9;
pub const MAX_WORD: usize = 24;
pub const MAX_LINE: usize = 192;
pub const ANY_LEVELS: u32 = u32::MAX;

type H = *mut RawHandle;
type P = *const u8;

extern "C" {
    fn dia_abi_version() -> u32;
    fn dia_dict_open(text: P, len: usize, dict: H, problem: *mut Problem) -> u32;
    fn dia_dict_open_base(dict: H) -> u32;
    fn dia_dict_share(dict: H, other: H) -> u32;
    fn dia_dict_close(dict: H);
    fn dia_faults_open(text: P, len: usize, faults: H, count: *mut usize) -> u32;
    fn dia_faults_get(faults: H, index: usize, fault: *mut Fault) -> u32;
    fn dia_faults_close(faults: H);
    fn dia_line_column(text: P, len: usize, at: usize, line: *mut usize, column: *mut usize);
    fn dia_command_name(dict: H, command: u32, out: *mut u8, room: usize, count: *mut usize) -> u32;
    fn dia_avp_name(dict: H, code: u32, vendor: u32, out: *mut u8, room: usize, count: *mut usize) -> u32;
    fn dia_dict_commands(dict: H, count: *mut usize) -> u32;
    fn dia_dict_command(dict: H, index: usize, command: *mut Command) -> u32;
    fn dia_dict_avps(dict: H, count: *mut usize) -> u32;
    fn dia_dict_avp(dict: H, index: usize, avp: *mut Entry) -> u32;
    fn dia_check(dict: H, unknown: u32, levels: u32, message: P, len: usize, verdict: *mut Verdict) -> u32;
    fn dia_check_many(
        dict: H,
        unknown: u32,
        levels: u32,
        bytes: P,
        len: usize,
        ends: *const usize,
        end_count: usize,
        verdicts: *mut Verdict,
        verdict_count: usize,
    ) -> u32;
    fn dia_check_json(dict: H, unknown: u32, levels: u32, message: P, len: usize, line: H) -> u32;
    fn dia_message_length(header: P, len: usize, length: *mut u32, verdict: *mut Verdict) -> u32;
    fn dia_header(bytes: P, len: usize, head: *mut Head, verdict: *mut Verdict) -> u32;
    fn dia_reason_word(reason: u32, out: *mut u8, room: usize, count: *mut usize) -> u32;
    fn dia_kind_word(kind: u32, out: *mut u8, room: usize, count: *mut usize) -> u32;
    fn dia_status_word(status: u32, out: *mut u8, room: usize, count: *mut usize) -> u32;
    fn dia_verdict_text(dict: H, verdict: *const Verdict, out: *mut u8, room: usize, count: *mut usize) -> u32;
    fn dia_avps(
        dict: H,
        message: P,
        len: usize,
        avps: *mut Avp,
        room: usize,
        count: *mut usize,
        bad: *mut usize,
        verdict: *mut Verdict,
    ) -> u32;
    fn dia_avps_at(
        dict: H,
        message: P,
        len: usize,
        offset: usize,
        avps: *mut Avp,
        room: usize,
        count: *mut usize,
        verdict: *mut Verdict,
    ) -> u32;
    fn dia_avp_find(dict: H, message: P, len: usize, code: u32, vendor: u32, avp: *mut Avp, verdict: *mut Verdict) -> u32;
    fn dia_stream_open(dict: H, unknown: u32, levels: u32, stream: H) -> u32;
    fn dia_stream_feed(stream: H, piece: P, len: usize, fed: *mut Fed) -> u32;
    fn dia_stream_levels(stream: H, levels: *mut usize) -> u32;
    fn dia_stream_again(stream: H, verdict: *mut Verdict) -> u32;
    fn dia_stream_close(stream: H);
    fn dia_render(source: P, len: usize, text: H, problem: *mut Problem) -> u32;
    fn dia_show(dict: H, message: P, len: usize, text: H, whole: *mut u32, verdict: *mut Verdict) -> u32;
    fn dia_explain(text: P, text_len: usize, unknown: u32, levels: u32, message: P, len: usize, note: H) -> u32;
    fn dia_text_length(text: H, length: *mut usize) -> u32;
    fn dia_text_read(text: H, from: usize, out: *mut u8, room: usize, count: *mut usize) -> u32;
    fn dia_text_close(text: H);
    fn dia_answer(
        dict: H,
        unknown: u32,
        levels: u32,
        host: P,
        host_len: usize,
        realm: P,
        realm_len: usize,
        message: P,
        len: usize,
        bytes: H,
        form: *mut u32,
        verdict: *mut Verdict,
    ) -> u32;
    fn dia_compare(a: H, b: H, unknown: u32, table: P, len: usize, line: H, holds: *mut u32, problem: *mut Problem) -> u32;
    fn dia_table_place(table: P, len: usize, kind: u32, line: u32) -> usize;
    fn dia_breaking(
        a: H,
        b: H,
        sends: u32,
        unknown: u32,
        options: u32,
        commands: P,
        commands_len: usize,
        accepted: P,
        accepted_len: usize,
        text: H,
        safe: *mut u32,
        problem: *mut Problem,
    ) -> u32;
    fn dia_peer_open_with(options: *const PeerOptions, peer: H, fault: *mut u32) -> u32;
    fn dia_peer_event(peer: H, event: u32, bytes: P, len: usize, cause: u32) -> u32;
    fn dia_peer_output(peer: H, output: *mut u32, out: *mut u8, room: usize, count: *mut usize, why: *mut u32) -> u32;
    fn dia_peer_state(peer: H, state: *mut u32) -> u32;
    fn dia_peer_common(peer: H, index: usize, app: *mut App) -> u32;
    fn dia_peer_serves(peer: H, id: u32, serves: *mut u32) -> u32;
    fn dia_peer_identifiers(peer: H, hop: *mut u32, e2e: *mut u32) -> u32;
    fn dia_peer_timer(before: u32, event: u32, after: u32, timer: *mut u32) -> u32;
    fn dia_peer_quiet_ms(tw: u32, drawn: u32) -> u64;
    fn dia_peer_heard(peer: H) -> u32;
    fn dia_peer_suspect(peer: H, suspect: *mut u32) -> u32;
    fn dia_peer_value(peer: H, which: u32, out: *mut u8, room: usize, count: *mut usize) -> u32;
    fn dia_peer_close(peer: H);
}

/// What a handle is of: how it is closed.
pub trait Kind {
    #[doc(hidden)]
    const CLOSE: Close;
}
/// A call that closes a handle of a kind.
pub struct Close(unsafe extern "C" fn(H));

pub enum Dict {}
pub enum Faults {}
pub enum Stream {}
pub enum Text {}
pub enum Peer {}
impl Kind for Dict {
    const CLOSE: Close = Close(dia_dict_close);
}
impl Kind for Faults {
    const CLOSE: Close = Close(dia_faults_close);
}
impl Kind for Stream {
    const CLOSE: Close = Close(dia_stream_close);
}
impl Kind for Text {
    const CLOSE: Close = Close(dia_text_close);
}
impl Kind for Peer {
    const CLOSE: Close = Close(dia_peer_close);
}

/// An open handle, which is closed when it is dropped.
pub struct Handle<K: Kind> {
    raw: UnsafeCell<RawHandle>,
    kind: PhantomData<K>,
}

// SAFETY: a handle may go to another thread, by what orders the two threads, as a move does. `UnsafeCell` keeps it from being `Sync`:
// dia.h allows one call at a time for each handle. Handles of one dictionary may be used by several threads at once.
unsafe impl<K: Kind> Send for Handle<K> {}

impl<K: Kind> Handle<K> {
    fn closed() -> Self {
        Handle { raw: UnsafeCell::new(RawHandle { private: null_mut(), state: 0 }), kind: PhantomData }
    }

    /// The handle that a call opens, or the status if it is another than OK, on which the handle is closed.
    fn open(call: impl FnOnce(H) -> u32) -> Result<Self, u32> {
        let made = Self::closed();
        done(call(made.at()))?;
        Ok(made)
    }

    fn at(&self) -> H {
        self.raw.get()
    }
}

impl<K: Kind> Drop for Handle<K> {
    fn drop(&mut self) {
        // SAFETY: the handle was made by the calls of its kind, and nothing uses it later. Closing a closed one does nothing.
        unsafe { K::CLOSE.0(self.at()) }
    }
}

fn done(status: u32) -> Result<(), u32> {
    if status == OK {
        Ok(())
    } else {
        Err(status)
    }
}

/// What a call that takes a buffer writes: the first time into this much room, else into as much as it asks for.
fn written(room: usize, mut call: impl FnMut(*mut u8, usize, &mut usize) -> u32) -> Result<Vec<u8>, u32> {
    let mut out = vec![0; room];
    loop {
        let mut count = 0;
        match call(out.as_mut_ptr(), out.len(), &mut count) {
            OK => {
                out.truncate(count);
                return Ok(out);
            }
            NO_ROOM if count > out.len() => out = vec![0; count],
            status => return Err(status),
        }
    }
}

/// A policy for unknown AVPs, and how many groups may be nested.
pub type Limits = (u32, u32);

// SAFETY, of each block below: see the head of this file.

pub fn abi_version() -> u32 {
    unsafe { dia_abi_version() }
}

pub fn dict_open(text: &[u8]) -> Result<Handle<Dict>, u32> {
    let mut problem = Problem::default();
    Handle::open(|h| unsafe { dia_dict_open(text.as_ptr(), text.len(), h, &mut problem) })
}

pub fn dict_open_base() -> Result<Handle<Dict>, u32> {
    Handle::open(|h| unsafe { dia_dict_open_base(h) })
}

pub fn dict_share(dict: &Handle<Dict>) -> Result<Handle<Dict>, u32> {
    Handle::open(|h| unsafe { dia_dict_share(dict.at(), h) })
}

pub fn faults(text: &[u8]) -> Result<Vec<Fault>, u32> {
    let mut count = 0;
    let faults = Handle::<Faults>::open(|h| unsafe { dia_faults_open(text.as_ptr(), text.len(), h, &mut count) })?;
    let get = |index| {
        let mut fault = Fault {
            at: 0,
            name_count: 0,
            slot_count: 0,
            kind: 0,
            token: 0,
            has_place: 0,
            name: [0; MAX_NAME],
            slot: [0; MAX_NAME],
        };
        done(unsafe { dia_faults_get(faults.at(), index, &mut fault) }).map(|()| fault)
    };
    (0..count).map(get).collect()
}

pub fn line_column(text: &[u8], at: usize) -> (usize, usize) {
    let (mut line, mut column) = (0, 0);
    unsafe { dia_line_column(text.as_ptr(), text.len(), at, &mut line, &mut column) };
    (line, column)
}

pub fn command_name(dict: &Handle<Dict>, command: u32) -> Result<Vec<u8>, u32> {
    written(MAX_NAME, |out, room, count| unsafe { dia_command_name(dict.at(), command, out, room, count) })
}

pub fn avp_name(dict: &Handle<Dict>, code: u32, vendor: u32) -> Result<Vec<u8>, u32> {
    written(MAX_NAME, |out, room, count| unsafe { dia_avp_name(dict.at(), code, vendor, out, room, count) })
}

pub fn commands(dict: &Handle<Dict>) -> Result<Vec<Command>, u32> {
    let mut count = 0;
    done(unsafe { dia_dict_commands(dict.at(), &mut count) })?;
    let get = |index| {
        let mut found =
            Command { name_count: 0, command: 0, code: 0, kind: 0, proxy: 0, has_app: 0, app: 0, name: [0; MAX_NAME] };
        done(unsafe { dia_dict_command(dict.at(), index, &mut found) }).map(|()| found)
    };
    (0..count).map(get).collect()
}

pub fn entries(dict: &Handle<Dict>) -> Result<Vec<Entry>, u32> {
    let mut count = 0;
    done(unsafe { dia_dict_avps(dict.at(), &mut count) })?;
    let get = |index| {
        let mut found = Entry { name_count: 0, code: 0, vendor: 0, format: 0, mandatory: 0, name: [0; MAX_NAME] };
        done(unsafe { dia_dict_avp(dict.at(), index, &mut found) }).map(|()| found)
    };
    (0..count).map(get).collect()
}

pub fn check(dict: &Handle<Dict>, limits: Limits, message: &[u8]) -> Result<Verdict, u32> {
    let mut verdict = Verdict::default();
    done(unsafe { dia_check(dict.at(), limits.0, limits.1, message.as_ptr(), message.len(), &mut verdict) })?;
    Ok(verdict)
}

pub fn check_many(dict: &Handle<Dict>, limits: Limits, bytes: &[u8], ends: &[usize]) -> Result<Vec<Verdict>, u32> {
    let mut found = vec![Verdict::default(); ends.len()];
    let (count, verdicts) = (found.len(), found.as_mut_ptr());
    done(unsafe {
        dia_check_many(dict.at(), limits.0, limits.1, bytes.as_ptr(), bytes.len(), ends.as_ptr(), ends.len(), verdicts, count)
    })?;
    Ok(found)
}

pub fn check_json(dict: &Handle<Dict>, limits: Limits, message: &[u8]) -> Result<Vec<u8>, u32> {
    text_of(|h| unsafe { dia_check_json(dict.at(), limits.0, limits.1, message.as_ptr(), message.len(), h) })
}

/// The text of a handle that a call opens.
fn text_of(call: impl FnOnce(H) -> u32) -> Result<Vec<u8>, u32> {
    let text = Handle::<Text>::open(call)?;
    let mut length = 0;
    done(unsafe { dia_text_length(text.at(), &mut length) })?;
    written(length, |out, room, count| unsafe { dia_text_read(text.at(), 0, out, room, count) })
}

pub fn message_length(header: &[u8]) -> Option<u32> {
    let (mut length, mut verdict) = (0, Verdict::default());
    (unsafe { dia_message_length(header.as_ptr(), header.len(), &mut length, &mut verdict) } == OK).then_some(length)
}

pub fn header(bytes: &[u8]) -> Option<Head> {
    let (mut head, mut verdict) = (Head::default(), Verdict::default());
    (unsafe { dia_header(bytes.as_ptr(), bytes.len(), &mut head, &mut verdict) } == OK).then_some(head)
}

pub fn reason_word(reason: u32) -> Option<Vec<u8>> {
    written(MAX_WORD, |out, room, count| unsafe { dia_reason_word(reason, out, room, count) }).ok()
}

pub fn kind_word(kind: u32) -> Option<Vec<u8>> {
    written(MAX_WORD, |out, room, count| unsafe { dia_kind_word(kind, out, room, count) }).ok()
}

pub fn status_word(status: u32) -> Option<Vec<u8>> {
    written(MAX_WORD, |out, room, count| unsafe { dia_status_word(status, out, room, count) }).ok()
}

pub fn verdict_text(dict: &Handle<Dict>, verdict: &Verdict) -> Result<Vec<u8>, u32> {
    written(MAX_LINE, |out, room, count| unsafe { dia_verdict_text(dict.at(), verdict, out, room, count) })
}

/// A refusal with the verdict on bytes that are no message.
pub type NoMessage = (u32, Verdict);

const NO_AVP: Avp = Avp {
    place: 0,
    depth: 0,
    length: 0,
    data_place: 0,
    data_length: 0,
    name_count: 0,
    code: 0,
    vendor: 0,
    flags: 0,
    format: 0,
    name: [0; MAX_NAME],
    reserved: [0; 4],
};

/// AVPs, in as much room as a call asks for.
fn avps_of(mut call: impl FnMut(*mut Avp, usize, &mut usize, &mut Verdict) -> u32) -> Result<Vec<Avp>, NoMessage> {
    let (mut found, mut verdict) = (vec![NO_AVP; 32], Verdict::default());
    loop {
        let mut count = 0;
        match call(found.as_mut_ptr(), found.len(), &mut count, &mut verdict) {
            OK => {
                found.truncate(count);
                return Ok(found);
            }
            NO_ROOM if count > found.len() => found = vec![NO_AVP; count],
            status => return Err((status, verdict)),
        }
    }
}

/// The AVPs, and the offset of the first bad AVP Length's AVP, or else the length of the message.
pub fn avps(dict: &Handle<Dict>, message: &[u8]) -> Result<(Vec<Avp>, usize), NoMessage> {
    let mut bad = 0;
    let found = avps_of(|avps, room, count, verdict| unsafe {
        dia_avps(dict.at(), message.as_ptr(), message.len(), avps, room, count, &mut bad, verdict)
    })?;
    Ok((found, bad))
}

pub fn avp_find(dict: &Handle<Dict>, message: &[u8], code: u32, vendor: u32) -> Result<Option<Avp>, NoMessage> {
    let (mut found, mut verdict) = (NO_AVP, Verdict::default());
    match unsafe { dia_avp_find(dict.at(), message.as_ptr(), message.len(), code, vendor, &mut found, &mut verdict) } {
        OK => Ok(Some(found)),
        NONE => Ok(None),
        status => Err((status, verdict)),
    }
}

pub fn avps_at(dict: &Handle<Dict>, message: &[u8], offset: usize) -> Result<Vec<Avp>, NoMessage> {
    avps_of(|avps, room, count, verdict| unsafe {
        dia_avps_at(dict.at(), message.as_ptr(), message.len(), offset, avps, room, count, verdict)
    })
}

pub fn show(dict: &Handle<Dict>, message: &[u8]) -> Result<(Vec<u8>, bool), NoMessage> {
    let (mut whole, mut verdict) = (0, Verdict::default());
    let text = text_of(|h| unsafe { dia_show(dict.at(), message.as_ptr(), message.len(), h, &mut whole, &mut verdict) });
    text.map(|text| (text, whole == 1)).map_err(|status| (status, verdict))
}

pub fn stream_open(dict: &Handle<Dict>, limits: Limits) -> Result<Handle<Stream>, u32> {
    Handle::open(|h| unsafe { dia_stream_open(dict.at(), limits.0, limits.1, h) })
}

pub fn stream_feed(stream: &Handle<Stream>, piece: &[u8]) -> Result<Fed, u32> {
    let mut fed = Fed::default();
    done(unsafe { dia_stream_feed(stream.at(), piece.as_ptr(), piece.len(), &mut fed) })?;
    Ok(fed)
}

pub fn stream_levels(stream: &Handle<Stream>) -> Result<usize, u32> {
    let mut levels = 0;
    done(unsafe { dia_stream_levels(stream.at(), &mut levels) })?;
    Ok(levels)
}

pub fn stream_again(stream: &Handle<Stream>) -> Result<Verdict, u32> {
    let mut verdict = Verdict::default();
    done(unsafe { dia_stream_again(stream.at(), &mut verdict) })?;
    Ok(verdict)
}

pub fn render(source: &[u8]) -> Result<Vec<u8>, u32> {
    let mut problem = Problem::default();
    text_of(|h| unsafe { dia_render(source.as_ptr(), source.len(), h, &mut problem) })
}

pub fn explain(text: &[u8], limits: Limits, message: &[u8]) -> Result<Vec<u8>, u32> {
    text_of(|h| unsafe { dia_explain(text.as_ptr(), text.len(), limits.0, limits.1, message.as_ptr(), message.len(), h) })
}

/// The answer with its form, or none; and the verdict on the request.
pub type Answered = (Option<(Vec<u8>, u32)>, Verdict);

pub fn answer(dict: &Handle<Dict>, limits: Limits, host: &[u8], realm: &[u8], message: &[u8]) -> Result<Answered, u32> {
    let (mut form, mut verdict) = (0, Verdict::default());
    let made = text_of(|h| unsafe {
        dia_answer(
            dict.at(),
            limits.0,
            limits.1,
            host.as_ptr(),
            host.len(),
            realm.as_ptr(),
            realm.len(),
            message.as_ptr(),
            message.len(),
            h,
            &mut form,
            &mut verdict,
        )
    });
    match made {
        Ok(bytes) => Ok((Some((bytes, form)), verdict)),
        Err(NONE) => Ok((None, verdict)),
        Err(status) => Err(status),
    }
}

/// A text with a yes or a no; or a status, with the problem of a refusal.
pub type Judged = Result<(Vec<u8>, bool), (u32, Problem)>;

/// `a` and `b` may be one handle.
fn judged(a: &Handle<Dict>, b: &Handle<Dict>, call: impl FnOnce(H, H, H, &mut u32, &mut Problem) -> u32) -> Judged {
    let (mut yes, mut problem) = (0, Problem::default());
    let shared = if a.at() == b.at() { dict_share(b).map(Some) } else { Ok(None) };
    let text = shared.and_then(|other| text_of(|h| call(a.at(), other.as_ref().unwrap_or(b).at(), h, &mut yes, &mut problem)));
    text.map(|text| (text, yes == 1)).map_err(|status| (status, problem))
}

pub fn compare(a: &Handle<Dict>, b: &Handle<Dict>, unknown: u32, table: &[u8]) -> Judged {
    judged(a, b, |a, b, line, holds, problem| unsafe {
        dia_compare(a, b, unknown, table.as_ptr(), table.len(), line, holds, problem)
    })
}

pub fn table_place(table: &[u8], problem: &Problem) -> usize {
    unsafe { dia_table_place(table.as_ptr(), table.len(), problem.kind, problem.line) }
}

/// What is sent, what becomes of unknown AVPs, and options.
pub type Question = (u32, u32, u32);

pub fn breaking(a: &Handle<Dict>, b: &Handle<Dict>, question: Question, commands: &[u8], accepted: &[u8]) -> Judged {
    let (sends, unknown, options) = question;
    judged(a, b, |a, b, text, safe, problem| unsafe {
        dia_breaking(
            a,
            b,
            sends,
            unknown,
            options,
            commands.as_ptr(),
            commands.len(),
            accepted.as_ptr(),
            accepted.len(),
            text,
            safe,
            problem,
        )
    })
}

/// What an end is opened with.
pub struct Opening<'a> {
    pub role: u32,
    pub manner: u32,
    pub host: &'a [u8],
    pub realm: &'a [u8],
    pub product: &'a [u8],
    pub addresses: &'a [Ip],
    pub apps: &'a [App],
    pub numbers: Numbers,
}

/// A refusal has the number of the field.
pub fn peer_open(with: &Opening) -> Result<Handle<Peer>, (u32, u32)> {
    let mut fault = 0;
    let options = PeerOptions {
        size: size_of::<PeerOptions>(),
        role: with.role,
        manner: with.manner,
        host: with.host.as_ptr(),
        host_len: with.host.len(),
        realm: with.realm.as_ptr(),
        realm_len: with.realm.len(),
        product: with.product.as_ptr(),
        product_len: with.product.len(),
        addresses: with.addresses.as_ptr(),
        address_count: with.addresses.len(),
        apps: with.apps.as_ptr(),
        app_count: with.apps.len(),
        numbers: with.numbers,
        reserved: [0; 8],
    };
    let opened = Handle::open(|h| unsafe { dia_peer_open_with(&options, h, &mut fault) });
    opened.map_err(|status| (status, fault))
}

pub fn peer_event(peer: &Handle<Peer>, event: u32, bytes: &[u8], cause: u32) -> Result<(), u32> {
    done(unsafe { dia_peer_event(peer.at(), event, bytes.as_ptr(), bytes.len(), cause) })
}

/// What an end asks for: to send these bytes, or to close the connection for this reason.
pub enum Output {
    Send(Vec<u8>),
    Close(u32),
}

pub fn peer_output(peer: &Handle<Peer>) -> Result<Output, u32> {
    let (mut output, mut why) = (0, 0);
    let bytes = written(512, |out, room, count| unsafe { dia_peer_output(peer.at(), &mut output, out, room, count, &mut why) })?;
    Ok(if output == 0 { Output::Send(bytes) } else { Output::Close(why) })
}

pub fn peer_state(peer: &Handle<Peer>) -> Result<u32, u32> {
    let mut state = 0;
    done(unsafe { dia_peer_state(peer.at(), &mut state) })?;
    Ok(state)
}

pub fn peer_common(peer: &Handle<Peer>, index: usize) -> Result<App, u32> {
    let mut app = App::default();
    done(unsafe { dia_peer_common(peer.at(), index, &mut app) })?;
    Ok(app)
}

pub fn peer_serves(peer: &Handle<Peer>, id: u32) -> Result<bool, u32> {
    let mut serves = 0;
    done(unsafe { dia_peer_serves(peer.at(), id, &mut serves) })?;
    Ok(serves == 1)
}

pub fn peer_identifiers(peer: &Handle<Peer>) -> Result<(u32, u32), u32> {
    let (mut hop, mut e2e) = (0, 0);
    done(unsafe { dia_peer_identifiers(peer.at(), &mut hop, &mut e2e) })?;
    Ok((hop, e2e))
}

pub fn peer_timer(before: u32, event: u32, after: u32) -> Result<u32, u32> {
    let mut timer = 0;
    done(unsafe { dia_peer_timer(before, event, after, &mut timer) })?;
    Ok(timer)
}

pub fn peer_quiet_ms(tw: u32, drawn: u32) -> u64 {
    unsafe { dia_peer_quiet_ms(tw, drawn) }
}

pub fn peer_heard(peer: &Handle<Peer>) -> Result<(), u32> {
    done(unsafe { dia_peer_heard(peer.at()) })
}

pub fn peer_suspect(peer: &Handle<Peer>) -> Result<bool, u32> {
    let mut suspect = 0;
    done(unsafe { dia_peer_suspect(peer.at(), &mut suspect) })?;
    Ok(suspect == 1)
}

pub fn peer_value(peer: &Handle<Peer>, which: u32) -> Result<Vec<u8>, u32> {
    written(64, |out, room, count| unsafe { dia_peer_value(peer.at(), which, out, room, count) })
}
