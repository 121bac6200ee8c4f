//! Two ends of a connection, by the tables of docs/CONNECTION.md.

use std::net::Ipv6Addr;
use std::time::Duration;

use wittalen::{
    quiet_time, Application, Cause, Config, Dictionary, Error, Field, Modes, Output, Peer, Policy, Role, State, Timer, Why, RELAY,
};

const VALUES: Modes = Modes { relays: false, answers: false, life: false, values: true };

fn ends(modes: Modes) -> (Peer, Peer) {
    let ours = Config { product: "p".into(), modes, ..Config::new("a.b", "b", &[Application::auth(4)]) };
    let theirs = Config::new("c.d", "d", &[Application::auth(1), Application::accounting(3), Application::auth(4)]);
    let theirs = Config { product: "q".into(), modes, addresses: vec![Ipv6Addr::LOCALHOST.into()], ..theirs };
    (Peer::new(Role::Initiator, &ours).unwrap(), Peer::new(Role::Responder, &theirs).unwrap())
}

/// The only output, which is a message.
fn sent(outputs: Result<Vec<Output>, Error>) -> Vec<u8> {
    let mut outputs = outputs.unwrap();
    assert_eq!(outputs.len(), 1);
    match outputs.pop() {
        Some(Output::Send(message)) => message,
        other => panic!("{other:?}"),
    }
}

/// Two ends whose connection is open.
fn opened(modes: Modes) -> (Peer, Peer) {
    let (mut first, mut second) = ends(modes);
    assert_eq!(second.start(), Ok(vec![]));
    let cer = sent(first.start());
    assert_eq!((first.timer(), second.timer()), (Timer::Reply, Timer::Reply));
    let cea = sent(second.receive(&cer));
    assert_eq!(first.receive(&cea), Ok(vec![]));
    (first, second)
}

#[test]
fn a_connection() {
    let (mut first, mut second) = opened(VALUES);
    for end in [&first, &second] {
        assert_eq!((end.state(), end.timer()), (Ok(State::Open), Timer::Quiet));
        assert_eq!(end.common(), Ok(vec![Application::auth(4)]));
        assert_eq!((end.serves(4), end.serves(0), end.serves(3)), (Ok(true), Ok(true), Ok(false)));
    }
    assert_eq!((first.host(), first.realm()), (Ok(Some("c.d".into())), Ok(Some("d".into()))));
    assert_eq!((first.product(), first.result(), first.cause()), (Ok(Some("q".into())), Ok(Some(2001)), Ok(None)));
    let dwr = sent(first.tick());
    let dwa = sent(second.receive(&dwr));
    assert!(Dictionary::base().unwrap().check(&dwa, Policy::default()).unwrap().is_valid());
    assert_eq!(first.receive(&dwa), Ok(vec![]));
    let dpr = sent(first.stop(Cause::Busy));
    let outputs = second.receive(&dpr).unwrap();
    let [Output::Send(dpa), Output::Close(Why::PeerStopped)] = &outputs[..] else { panic!("{outputs:?}") };
    assert_eq!(second.cause(), Ok(Some(Cause::Busy)));
    assert_eq!(first.receive(dpa), Ok(vec![Output::Close(Why::Stopped)]));
    assert_eq!((first.state(), first.timer()), (Ok(State::Closed), Timer::Off));
}

#[test]
fn identifiers() {
    let config = Config { identifiers: Some((7, 9)), ..Config::new("a.b", "b", &[Application::auth(4)]) };
    let mut peer = Peer::new(Role::Initiator, &config).unwrap();
    assert_eq!(sent(peer.start())[12..20], [0, 0, 0, 7, 0, 0, 0, 9]);
    assert_eq!(peer.take_identifiers(), Ok((8, 10)));
    assert_eq!(peer.host(), Ok(None));
}

#[test]
fn nothing_in_common() {
    let (mut first, mut second) = ends(Modes::default());
    let mut other = Peer::new(Role::Responder, &Config::new("e", "f", &[Application::auth(5)])).unwrap();
    other.start().unwrap();
    let outputs = other.receive(&sent(first.start())).unwrap();
    let [Output::Send(cea), Output::Close(Why::NoCommon)] = &outputs[..] else { panic!("{outputs:?}") };
    assert_eq!(first.receive(cea), Ok(vec![Output::Close(Why::NoCommon)]));
    second.start().unwrap();
    assert_eq!(second.tick(), Ok(vec![Output::Close(Why::Timeout)]));
    assert_eq!((second.lost(), second.state()), (Ok(vec![]), Ok(State::Closed)));
}

#[test]
fn a_suspect_connection() {
    let (mut first, _second) = opened(Modes { life: true, ..Modes::default() });
    sent(first.tick());
    assert_eq!((first.tick(), first.suspect()), (Ok(vec![]), Ok(true)));
    first.heard().unwrap();
    assert_eq!(first.suspect(), Ok(false));
    assert_eq!((first.tick(), first.tick()), (Ok(vec![]), Ok(vec![Output::Close(Why::Watchdog)])));
}

#[test]
fn invalid_requests() {
    // a DWR without AVPs
    let spoiled = [1, 0, 0, 20, 0x80, 0, 1, 24, 0, 0, 0, 0, 0, 0, 0, 1, 0, 0, 0, 2];
    for answers in [false, true] {
        let (_first, mut second) = opened(Modes { answers, ..Modes::default() });
        let outputs = second.receive(&spoiled).unwrap();
        assert_eq!((outputs.len(), outputs.last()), (1 + usize::from(answers), Some(&Output::Close(Why::Invalid))));
    }
}

#[test]
fn refused_configurations() {
    let app = [Application::auth(4)];
    let rows = [
        (Config::new("", "b", &app), Field::Host),
        (Config::new("a", "b c", &app), Field::Realm),
        (Config { product: "p".repeat(256), ..Config::new("a", "b", &app) }, Field::Product),
        (Config { addresses: vec![], ..Config::new("a", "b", &app) }, Field::Addresses),
        (Config::new("a", "b", &[]), Field::Applications),
        (Config::new("a", "b", &[Application::auth(RELAY)]), Field::Applications),
    ];
    for (config, field) in rows {
        assert_eq!(Peer::new(Role::Initiator, &config).unwrap_err(), Error::Config(field));
    }
    assert_eq!(Error::Config(Field::Host).to_string(), "Host is refused");
    let relay =
        Config { modes: Modes { relays: true, ..Modes::default() }, ..Config::new("a", "b", &[Application::auth(RELAY)]) };
    assert!(Peer::new(Role::Initiator, &relay).is_ok());
}

#[test]
fn quiet_times() {
    for tw in [0, 6, 30].map(Duration::from_secs) {
        let (quiet, least) = (quiet_time(tw), tw.max(Duration::from_secs(6)));
        assert!(quiet + Duration::from_secs(2) >= least && quiet <= least + Duration::from_secs(2));
    }
}
