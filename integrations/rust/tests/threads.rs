//! What each type grants about threads: the library allows one call at a time for each handle, and a handle goes to another thread as a
//! move does.

use wittalen::{
    Answer, Avps, Breaking, Command, Config, Dictionary, Entry, Error, Header, Output, Peer, Policy, Role, Stream, TextFault,
    Upgrade, Verdict,
};

/// The calls below compile for types that are `Send`, or both.
const fn goes_to_another_thread<T: Send>() {}
const fn is_used_by_several<T: Send + Sync>() {}

const _: () = {
    goes_to_another_thread::<Dictionary>();
    goes_to_another_thread::<Stream>();
    goes_to_another_thread::<Peer>();
    is_used_by_several::<Answer>();
    is_used_by_several::<Avps>();
    is_used_by_several::<Breaking>();
    is_used_by_several::<Command>();
    is_used_by_several::<Config>();
    is_used_by_several::<Entry>();
    is_used_by_several::<Error>();
    is_used_by_several::<Header>();
    is_used_by_several::<Output>();
    is_used_by_several::<Policy>();
    is_used_by_several::<TextFault>();
    is_used_by_several::<Upgrade>();
    is_used_by_several::<Verdict>();
};

/// A type that is `Sync` has this trait in two ways, so that the compiler can't choose one.
trait NotSync<Way> {
    fn has_one_way() {}
}
struct BySync;
impl<T> NotSync<()> for T {}
impl<T: Sync> NotSync<BySync> for T {}

const _: () = {
    let _ = <Dictionary as NotSync<_>>::has_one_way;
    let _ = <Stream as NotSync<_>>::has_one_way;
    let _ = <Peer as NotSync<_>>::has_one_way;
};

#[test]
fn dictionaries_of_several_threads() {
    let dictionary =
        Dictionary::new("%avp Usage 9002 Unsigned32 any\n<Report> ::= < Diameter Header: 302, REQ > [ Usage ]").unwrap();
    let message = [1, 0, 0, 20, 0x80, 0, 1, 46, 0, 0, 0, 0, 0, 0, 0, 1, 0, 0, 0, 2];
    let run = |dictionary: Dictionary| {
        move || (0..1000).all(|_| dictionary.check(&message, Policy::default()).is_ok_and(|verdict| verdict.is_valid()))
    };
    let threads: Vec<_> = (0..8).map(|_| std::thread::spawn(run(dictionary.share().unwrap()))).collect();
    // a shared one outlives the first
    drop(dictionary);
    assert!(threads.into_iter().all(|thread| thread.join().unwrap()));
}

#[test]
fn a_stream_goes_on_in_another_thread() {
    let dictionary = Dictionary::base().unwrap();
    let mut stream = dictionary.stream(Policy::default()).unwrap();
    assert!(stream.feed(&[1, 0, 0]).unwrap().rest.is_empty());
    let verdict = std::thread::spawn(move || stream.finish()).join().unwrap();
    assert_eq!(verdict, Ok(Verdict::Truncated));
}

#[test]
fn a_peer_goes_on_in_another_thread() {
    let config = Config::new("a.example.com", "example.com", &[wittalen::Application::auth(4)]);
    let mut peer = Peer::new(Role::Initiator, &config).unwrap();
    let outputs = std::thread::spawn(move || peer.start()).join().unwrap().unwrap();
    assert!(matches!(&outputs[..], [Output::Send(_)]));
}
