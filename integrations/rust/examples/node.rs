//! `node [-l PORT] [-c ADDRESS:PORT] [-h HOST] [-r REALM] [-w SECONDS] DICTIONARY..`: credit control (RFC 8506) over TCP.
//!
//! It accepts connections on loopback (-l; 0 takes any free port), until it is killed, or opens one (-c). The texts are one dictionary, by
//! which each message is checked. A CCR is answered with a CCA of the node's own, and a request that has a fault with its fault. -w is Tw,
//! 30 or at least 6 (RFC 3539 section 3.4.1). Standard output has a line for each message and each state.

use std::env;
use std::error::Error;
use std::io::{self, Read, Write};
use std::net::{Ipv4Addr, Shutdown, TcpListener, TcpStream};
use std::process::exit;
use std::sync::mpsc::{sync_channel, Receiver, RecvTimeoutError, SyncSender};
use std::sync::Arc;
use std::thread;
use std::time::{Duration, Instant};

use wittalen::{
    header, message_length, quiet_time, Application, Config, Dictionary, Header, Modes, Output, Peer, Policy, Role, State, Timer,
};

const CREDIT_CONTROL: u32 = 4;
const LONGEST: usize = 1 << 20;
const ANSWER_TIME: Duration = Duration::from_secs(10);
/// How long the other end may take to close.
const LINGER_TIME: Duration = Duration::from_secs(2);
/// How many messages wait.
const REQUESTS: usize = 8;
const CONNECTION_COMMANDS: [u32; 3] = [257, 280, 282];
const IS_PROXIABLE: u8 = 0x40;
const IS_ERROR: u8 = 0x20;
const IS_MANDATORY: u8 = 0x40;

type Done<T = ()> = Result<T, Box<dyn Error>>;

/// What all connections have in common.
struct Node {
    host: String,
    realm: String,
    tw: Duration,
}

/// A connection over TCP. Another thread reads from its socket.
struct Connection {
    node: Arc<Node>,
    name: String,
    socket: TcpStream,
    dictionary: Dictionary,
    peer: Peer,
    state: State,
    tick_at: Option<Instant>,
    is_over: bool,
}

impl Connection {
    fn new(node: Arc<Node>, dictionary: Dictionary, socket: TcpStream, role: Role) -> Done<Self> {
        let config = Config {
            product: "node.rs".into(),
            modes: Modes { answers: true, ..Default::default() },
            ..Config::new(&node.host, &node.realm, &[Application::auth(CREDIT_CONTROL)])
        };
        let (name, peer) = (socket.peer_addr()?.to_string(), Peer::new(role, &config)?);
        socket.set_write_timeout(Some(ANSWER_TIME))?;
        Ok(Connection { node, name, socket, dictionary, peer, state: State::Idle, tick_at: None, is_over: false })
    }

    /// Delivers what happens to the end, one after the other, until the connection is closed.
    fn run(mut self) -> Done {
        let (sender, came) = sync_channel(REQUESTS);
        let socket = self.socket.try_clone()?;
        let reader = thread::spawn(move || read(socket, sender));
        let outputs = self.peer.start()?;
        self.carry_out(outputs)?;
        while !self.is_over {
            match self.next(&came) {
                Ok(message) => self.receive(&message)?,
                Err(RecvTimeoutError::Timeout) => {
                    let outputs = self.peer.tick()?;
                    self.carry_out(outputs)?;
                }
                Err(RecvTimeoutError::Disconnected) => {
                    self.is_over = true;
                    let outputs = self.peer.lost()?;
                    self.carry_out(outputs)?;
                }
            }
        }
        self.linger(came);
        self.say("over");
        reader.join().map_err(|_| "the reader failed".into())
    }

    /// The next message, or that the time is up.
    fn next(&self, came: &Receiver<Vec<u8>>) -> Result<Vec<u8>, RecvTimeoutError> {
        match self.tick_at {
            Some(at) => came.recv_timeout(at.saturating_duration_since(Instant::now())),
            None => came.recv().map_err(RecvTimeoutError::from),
        }
    }

    /// Lets the other end close: a close with bytes unread would reset the connection, and what was sent might be lost.
    fn linger(&self, came: Receiver<Vec<u8>>) {
        let until = Instant::now() + LINGER_TIME;
        // the other end may be gone
        let _ = self.socket.shutdown(Shutdown::Write);
        while came.recv_timeout(until.saturating_duration_since(Instant::now())).is_ok() {}
        let _ = self.socket.shutdown(Shutdown::Both);
    }

    /// A message of the connection is for the end, and another is for the application if the connection is open.
    fn receive(&mut self, message: &[u8]) -> Done {
        self.look("<-", message)?;
        let of_application = header(message)
            .filter(|header| header.length as usize == message.len() && !CONNECTION_COMMANDS.contains(&header.code))
            .filter(|_| self.state == State::Open);
        let Some(header) = of_application else {
            let outputs = self.peer.receive(message)?;
            return self.carry_out(outputs);
        };
        // a sign of life (RFC 3539 section 3.4.1)
        self.peer.heard()?;
        self.set_timer(Timer::Quiet);
        match self.answer(message, &header)? {
            Some(answer) => self.send(&answer),
            None => Ok(()),
        }
    }

    /// The answer to a message of the application, if it is a request.
    fn answer(&self, message: &[u8], header: &Header) -> Done<Option<Vec<u8>>> {
        let answer = self.dictionary.answer(message, &self.node.host, &self.node.realm, Policy::default())?;
        if let Some((bytes, _)) = answer.message {
            return Ok(Some(bytes));
        }
        if !header.is_request() || !answer.verdict.is_valid() {
            return Ok(None);
        }
        let made = match (self.peer.serves(header.application)?, header.code) {
            (false, _) => self.refusal(message, header, 3007), // DIAMETER_APPLICATION_UNSUPPORTED
            (true, 272) => self.credit_control_answer(message, header),
            (true, _) => self.refusal(message, header, 3001), // DIAMETER_COMMAND_UNSUPPORTED
        };
        made.map(Some)
    }

    /// A CCA (RFC 8506 section 3.2) to a valid CCR.
    fn credit_control_answer(&self, request: &[u8], header: &Header) -> Done<Vec<u8>> {
        let body = [
            self.copied(request, 263)?,       // Session-Id
            avp(268, &2001u32.to_be_bytes()), // Result-Code: DIAMETER_SUCCESS
            self.origin(),
            avp(258, &CREDIT_CONTROL.to_be_bytes()), // Auth-Application-Id
            self.copied(request, 416)?,              // CC-Request-Type
            self.copied(request, 415)?,              // CC-Request-Number
        ];
        Ok(reply(header, 0, &body.concat()))
    }

    /// An error message (RFC 6733 section 7.2).
    fn refusal(&self, request: &[u8], header: &Header, code: u32) -> Done<Vec<u8>> {
        let body = [self.copied(request, 263)?, self.origin(), avp(268, &code.to_be_bytes())];
        Ok(reply(header, IS_ERROR, &body.concat()))
    }

    fn origin(&self) -> Vec<u8> {
        [avp(264, self.node.host.as_bytes()), avp(296, self.node.realm.as_bytes())].concat()
    }

    /// The first AVP of a message that has this code, no vendor, and is in no group; nothing if there is none.
    fn copied(&self, message: &[u8], code: u32) -> Done<Vec<u8>> {
        let found = self.dictionary.find(message, code, 0)?;
        Ok(found.map_or_else(Vec::new, |found| avp(code, found.data)))
    }

    /// Carries out what the end asks for, in order, and sets the timer.
    fn carry_out(&mut self, outputs: Vec<Output>) -> Done {
        for output in outputs {
            match output {
                Output::Send(message) => self.send(&message)?,
                Output::Close(why) => {
                    self.say(&format!("closes: {}", words(&format!("{why:?}"))));
                    self.is_over = true;
                }
            }
        }
        let state = self.peer.state()?;
        if state != self.state {
            self.state = state;
            self.say(&words(&format!("{state:?}")));
        }
        self.set_timer(self.peer.timer());
        Ok(())
    }

    fn set_timer(&mut self, timer: Timer) {
        match timer {
            Timer::Quiet => self.tick_at = Some(Instant::now() + quiet_time(self.node.tw)),
            Timer::Reply => self.tick_at = Some(Instant::now() + ANSWER_TIME),
            Timer::Off => self.tick_at = None,
            _ => {}
        }
    }

    fn send(&mut self, message: &[u8]) -> Done {
        self.look("->", message)?;
        if let Err(error) = self.socket.write_all(message) {
            self.say(&error.to_string());
            self.is_over = true;
        }
        Ok(())
    }

    /// Writes the verdict on a message.
    fn look(&self, way: &str, message: &[u8]) -> Done {
        let verdict = self.dictionary.check(message, Policy::default())?;
        self.say(&format!("{way} {} bytes: {}", message.len(), self.dictionary.describe(&verdict)?));
        Ok(())
    }

    fn say(&self, line: &str) {
        println!("{}: {}: {line}", self.node.host, self.name);
    }
}

/// Takes messages from a socket, and of bytes that begin none the first 20, which are the last.
fn read(mut socket: TcpStream, came: SyncSender<Vec<u8>>) {
    while let Ok((message, is_whole)) = next_message(&mut socket) {
        if came.send(message).is_err() || !is_whole {
            return;
        }
    }
}

fn next_message(socket: &mut TcpStream) -> io::Result<(Vec<u8>, bool)> {
    let mut message = vec![0; 20];
    socket.read_exact(&mut message)?;
    let Some(length) = message_length(&message).filter(|length| *length <= LONGEST) else {
        return Ok((message, false));
    };
    message.resize(length, 0);
    socket.read_exact(&mut message[20..])?;
    Ok((message, true))
}

/// The answer to a request with these flags, beside the P flag of the request, and these AVPs (RFC 6733 sections 3 and 6.2).
fn reply(request: &Header, flags: u8, body: &[u8]) -> Vec<u8> {
    let flags = u32::from(flags | request.flags & IS_PROXIABLE);
    let words = [
        1 << 24 | (20 + body.len()) as u32,
        flags << 24 | request.code,
        request.application,
        request.hop_by_hop,
        request.end_to_end,
    ];
    words.iter().flat_map(|word| word.to_be_bytes()).chain(body.iter().copied()).collect()
}

/// An AVP with the M flag and without a Vendor-ID, with its padding (RFC 6733 section 4.1).
fn avp(code: u32, data: &[u8]) -> Vec<u8> {
    let length = u32::from(IS_MANDATORY) << 24 | (8 + data.len()) as u32;
    let mut made = [&code.to_be_bytes()[..], &length.to_be_bytes(), data].concat();
    made.resize(made.len().next_multiple_of(4), 0);
    made
}

/// `WaitCea` as `WAIT_CEA`, as dia.h has it.
fn words(name: &str) -> String {
    let mut made = String::new();
    for (at, letter) in name.char_indices() {
        if at > 0 && letter.is_ascii_uppercase() {
            made.push('_');
        }
        made.push(letter.to_ascii_uppercase());
    }
    made
}

fn serve(node: &Arc<Node>, dictionary: &Dictionary, socket: TcpStream, role: Role) -> Done {
    Connection::new(Arc::clone(node), dictionary.share()?, socket, role)?.run()
}

/// Accepts connections, each with a thread and a dictionary of its own.
fn listen(node: &Arc<Node>, dictionary: &Dictionary, port: u16) -> Done {
    let listener = TcpListener::bind((Ipv4Addr::LOCALHOST, port))?;
    println!("{}: listens on {}", node.host, listener.local_addr()?.port());
    for socket in listener.incoming() {
        let (node, dictionary, socket) = (Arc::clone(node), dictionary.share()?, socket?);
        thread::spawn(move || {
            if let Err(error) = serve(&node, &dictionary, socket, Role::Responder) {
                eprintln!("{error}");
            }
        });
    }
    Ok(())
}

fn usage() -> ! {
    eprintln!("node [-l PORT] [-c ADDRESS:PORT] [-h HOST] [-r REALM] [-w SECONDS] DICTIONARY..");
    exit(2)
}

fn main() -> Done {
    let (mut port, mut address, mut files) = (None, None, Vec::new());
    let mut node = Node { host: "node.example.com".into(), realm: "example.com".into(), tw: Duration::from_secs(30) };
    let mut words = env::args().skip(1);
    while let Some(word) = words.next() {
        let mut value = || words.next().unwrap_or_else(|| usage());
        match word.as_str() {
            "-l" => port = Some(value().parse()?),
            "-c" => address = Some(value()),
            "-h" => node.host = value(),
            "-r" => node.realm = value(),
            "-w" => node.tw = Duration::from_secs(value().parse()?),
            _ => files.push(word),
        }
    }
    if files.is_empty() {
        usage();
    }
    let (node, dictionary) = (Arc::new(node), Dictionary::open(files)?);
    match (port, address) {
        (Some(port), None) => listen(&node, &dictionary, port),
        (None, Some(address)) => serve(&node, &dictionary, TcpStream::connect(address)?, Role::Initiator),
        _ => usage(),
    }
}
