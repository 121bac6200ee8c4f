//! Dictionaries, messages, and what breaks. Messages and offsets are counted by hand.

use wittalen::{
    compare, explain, faults, header, message_length, render, split, Breaking, Class, Command, Dictionary, Entry, Error, Fault,
    Form, Format, Header, Kind, Mandatory, OpenError, Policy, Proxiable, Reason, Sends, Subject, Unknown, Verdict,
};

/// An AVP, and the head of a request of it, whose rules follow.
const USAGE: &str = "%avp Usage 9002 Unsigned32 any\n<Report> ::= < Diameter Header: 302, REQ > ";

/// A request of the command 280 (RFC 6733 section 5.5.1): Origin-Host `a.b`, Origin-Realm `b`.
const WATCHDOG: &str = "0100002c80000118000000000000000100000002000001084000000b612e6200000001284000000962000000";

/// The same without AVPs.
const BARE: &str = "0100001480000118000000000000000100000002";

fn bytes(digits: &str) -> Vec<u8> {
    (0..digits.len()).step_by(2).map(|at| u8::from_str_radix(&digits[at..at + 2], 16).unwrap()).collect()
}

/// A Report with as many Usage, of 12 bytes each.
fn report(count: usize) -> Vec<u8> {
    let mut made = vec![1, 0, 0, (20 + 12 * count) as u8, 0x80, 0, 1, 46];
    made.resize(20, 0);
    (0..count).for_each(|_| made.extend(bytes("0000232a0000000c00000001")));
    made
}

fn dictionary(rules: &str) -> Dictionary {
    Dictionary::new(format!("{USAGE}{rules}")).unwrap()
}

fn kept() -> Policy {
    Policy::default()
}

#[test]
fn verdicts() {
    let (base, one, two) = (Dictionary::base().unwrap(), dictionary("{ Usage }"), dictionary("1*2 { Usage }"));
    let (whole, bare) = (bytes(WATCHDOG), bytes(BARE));
    let rows: [(&Dictionary, &[u8], &str); 8] = [
        (&base, &whole, "valid DWR"),
        (&base, &bare, "fault 5005 at 20 missing Origin-Host"),
        (&one, &report(2), "fault 5009 at 32 too-many Usage"),
        (&two, &report(2), "valid Report"),
        (&base, &whole[..43], "truncated"),
        (&base, &[], "truncated"),
        (&base, &[&whole[..], &[0]].concat(), "trailing"),
        (&base, &[&[2], &whole[1..]].concat(), "fault 5011 at 0 version -"),
    ];
    for (dictionary, message, wanted) in rows {
        let verdict = dictionary.check(message, kept()).unwrap();
        assert_eq!(dictionary.describe(&verdict).as_deref(), Ok(wanted));
        assert_eq!(verdict.is_valid(), wanted.starts_with("valid"));
    }
}

#[test]
fn fields_of_a_fault() {
    let verdict = dictionary("{ Usage }").check(&report(2), kept()).unwrap();
    let subject = Subject::Avp { code: 9002, vendor: 0 };
    assert_eq!(verdict, Verdict::Fault(Fault { code: 5009, offset: 32, reason: Reason::TooMany, subject }));
    // without the names of a dictionary
    assert_eq!(verdict.to_string(), "fault 5009 at 32 too-many 9002:0");
    assert_eq!((Reason::Other(99).to_string(), Reason::TooMany.number()), ("reason-99".into(), 11));
}

#[test]
fn policies() {
    let any = Dictionary::new("<Any> ::= < Diameter Header: 302, REQ > *[ AVP ]").unwrap();
    for (unknown, is_valid) in [(Unknown::Kept, true), (Unknown::Refused, false)] {
        let policy = Policy { unknown, levels: None };
        assert_eq!(any.check(&report(1), policy).map(|verdict| verdict.is_valid()), Ok(is_valid));
    }
    let nested = Dictionary::new("G ::= < AVP Header: 3 > *[ AVP ]\n<Any> ::= < Diameter Header: 302, REQ > *[ G ]").unwrap();
    let message = [&bytes("0100001c8000012e")[..], &[0; 12], &bytes("0000000300000008")].concat();
    for (levels, reason) in [(None, None), (Some(1), None), (Some(0), Some(Reason::Depth))] {
        let verdict = nested.check(&message, Policy { levels, ..kept() }).unwrap();
        let found = if let Verdict::Fault(fault) = verdict { Some(fault.reason) } else { None };
        assert_eq!((found, verdict.is_valid()), (reason, reason.is_none()));
    }
}

#[test]
fn many_messages() {
    let base = Dictionary::base().unwrap();
    let all = [bytes(WATCHDOG), bytes(BARE), bytes(WATCHDOG)].concat();
    let found = base.check_many(&all, &[44, 64, 108], kept()).unwrap();
    assert_eq!(found.iter().map(Verdict::is_valid).collect::<Vec<_>>(), [true, false, true]);
    assert_eq!(base.check_many(&[], &[], kept()), Ok(vec![]));
    for ends in [&[44, 20][..], &[109]] {
        assert_eq!(base.check_many(&all, ends, kept()), Err(Error::BadArgument));
    }
    assert_eq!(split(&all).map(<[u8]>::len).collect::<Vec<_>>(), [44, 20, 44]);
    assert_eq!(split(&all[..70]).map(<[u8]>::len).collect::<Vec<_>>(), [44, 20, 6]);
}

#[test]
fn headers() {
    // a CCR of RFC 8506: R and P are set
    let ccr = bytes("0100002cc0000110000000040000000500000006ff");
    let wanted = Header { length: 44, flags: 0xc0, code: 272, application: 4, hop_by_hop: 5, end_to_end: 6 };
    assert_eq!((header(&ccr), message_length(&ccr)), (Some(wanted), Some(44)));
    assert!(wanted.is_request() && wanted.is_proxiable() && !wanted.is_error());
    for wrong in [&[][..], &ccr[..19], &ccr[1..]] {
        assert_eq!((header(wrong), message_length(wrong)), (None, None));
    }
}

#[test]
fn answers() {
    let (base, bare) = (Dictionary::base().unwrap(), bytes(BARE));
    let answer = base.answer(&bare, "a.b", "b", kept()).unwrap();
    assert_eq!(base.describe(&answer.verdict).as_deref(), Ok("fault 5005 at 20 missing Origin-Host"));
    let (message, form) = answer.message.unwrap();
    // the header of the request without R (RFC 6733 section 6.2), and Result-Code 5005
    assert_eq!((form, message[4], &message[5..20]), (Form::Own, 0, &bare[5..]));
    let result = base.find(&message, 268, 0).unwrap();
    assert_eq!(result.map(|avp| avp.data), Some(&5005u32.to_be_bytes()[..]));
    let none = base.answer(&bytes(WATCHDOG), "a.b", "b", kept()).unwrap();
    assert!(none.message.is_none() && none.verdict.is_valid());
    for (host, realm) in [("", "b"), ("a", "x y")] {
        assert_eq!(base.answer(&bare, host, realm, kept()), Err(Error::BadArgument));
    }
}

#[test]
fn avps() {
    let dictionary = Dictionary::new("%avp A 1 OctetString any\nB ::= < AVP Header: 2 > *[ A ]").unwrap();
    // B at 20 has two A of 8 bytes, at 28 and 36
    let message = bytes("0100002c8000012e000000000000000000000000000000020000001800000001000000080000000100000008");
    let found = dictionary.avps(&message).unwrap();
    let fields: Vec<_> = found.avps.iter().map(|avp| (avp.offset, avp.depth, avp.length, avp.name.as_deref())).collect();
    assert_eq!((&fields[..], found.bad), (&[(20, 0, 24, Some("B")), (28, 1, 8, Some("A")), (36, 1, 8, Some("A"))][..], None));
    assert_eq!((found.avps[0].format, found.avps[0].data), (Some(Format::Grouped), &message[28..]));
    let around: Vec<_> = dictionary.avps_at(&message, 40).unwrap().iter().map(|avp| avp.offset).collect();
    assert_eq!((around, dictionary.avps_at(&message, 19)), (vec![20, 36], Ok(vec![])));
    let unknown = report(9);
    let many = dictionary.avps(&unknown).unwrap();
    assert_eq!((many.avps.len(), many.avps[8].offset, &many.avps[8].name, many.avps[8].code), (9, 116, &None, 9002));
    assert_eq!(dictionary.avps(&message[..43]), Err(Error::NoMessage(Verdict::Truncated)));
    assert_eq!(Error::NoMessage(Verdict::Truncated).to_string(), "no message: truncated");
}

#[test]
fn more_avps_than_a_first_room() {
    let mut message = vec![1, 0, 5, 20, 0x80, 0, 1, 46];
    message.resize(20, 0);
    (0..105).for_each(|_| message.extend(bytes("0000232a0000000c00000001")));
    // 20 and 105 times 12 bytes are 1,280: 0x500
    message[2..4].copy_from_slice(&[5, 0]);
    let found = dictionary("* [ Usage ]").avps(&message).unwrap();
    assert_eq!((found.avps.len(), found.bad, found.avps[104].offset), (105, None, 1268));
}

#[test]
fn found_avps() {
    let text = "%avp A 1 OctetString any\n%avp C 1 vendor 10415 OctetString any\nB ::= < AVP Header: 2 > *[ A ]";
    let dictionary = Dictionary::new(text).unwrap();
    // B at 20 has an A of 8 bytes at 28; then follow C at 36, of 12 bytes, A at 48, of 9, and A at 60
    let body = "00000002000000100000000100000008000000018000000c000028af0000000100000009ff0000000000000100000008";
    let mut message = [&bytes("010000448000012e")[..], &[0; 12], &bytes(body)].concat();
    let offset = |code, vendor| dictionary.find(&message, code, vendor).map(|found| found.map(|avp| avp.offset));
    assert_eq!(
        (offset(1, 0), offset(1, 10415), offset(2, 0), offset(3, 0)),
        (Ok(Some(48)), Ok(Some(36)), Ok(Some(20)), Ok(None))
    );
    let found = dictionary.find(&message, 1, 0).unwrap().unwrap();
    assert_eq!((found.length, found.data_offset, found.data, found.name.as_deref()), (9, 56, &[0xff][..], Some("A")));
    assert!(matches!(dictionary.find(&message[..60], 1, 0), Err(Error::NoMessage(Verdict::Truncated))));
    // the A in B has an AVP Length of 7: others follow B
    message[35] = 7;
    let found = dictionary.avps(&message).unwrap();
    assert_eq!((found.avps.iter().map(|avp| avp.offset).collect::<Vec<_>>(), found.bad), (vec![20, 36, 48, 60], Some(28)));
}

#[test]
fn shown() {
    let dictionary = dictionary("* [ Usage ]");
    let (lines, is_whole) = dictionary.show(&report(1)).unwrap();
    assert!(lines.contains("Usage 1") && is_whole);
    let mut cut = report(2);
    // an AVP Length of 7
    cut[39] = 7;
    assert_eq!(dictionary.show(&cut).map(|(_, is_whole)| is_whole), Ok(false));
    assert!(dictionary.check_json(&report(1), kept()).unwrap().contains("\"Report\""));
}

#[test]
fn parts_of_a_dictionary() {
    let text = format!("{USAGE}{{ Usage }}\n%avp B 3 vendor 10415 Grouped must\nB ::= < AVP Header: 3 10415 > *[ Usage ]");
    let dictionary = Dictionary::new(text).unwrap();
    let [Command { name, number, code: 302, class: Class::Request, proxiable: Proxiable::Clear, application: None }] =
        &dictionary.commands().unwrap()[..]
    else {
        panic!("the commands");
    };
    assert_eq!((name.as_str(), dictionary.command_name(*number).as_deref()), ("Report", Some("Report")));
    let entry = |name: &str, code, vendor, format, mandatory| Entry { name: name.into(), code, vendor, format, mandatory };
    let wanted =
        [entry("Usage", 9002, 0, Format::Unsigned32, Mandatory::Any), entry("B", 3, 10415, Format::Grouped, Mandatory::Must)];
    assert_eq!(dictionary.entries().unwrap(), wanted);
    assert_eq!((dictionary.avp_name(3, 10415).as_deref(), dictionary.avp_name(3, 0)), (Some("B"), None));
}

#[test]
fn no_dictionary() {
    let text = "%avp A 1 Time any\n%avp A 2 Time any ; \u{e4}\n<R> ::= < Diameter Header: 1, REQ > { X }";
    let found = faults(text).unwrap();
    // the second A is in column 6 of line 2, and X in column 39 of line 3
    let lines: Vec<_> = found.iter().map(ToString::to_string).collect();
    assert_eq!(lines, ["2:6: duplicate-name A", "3:39: undefined-name R X"]);
    let error = Dictionary::new(text).unwrap_err();
    assert_eq!(error.to_string(), "no dictionary: 2:6: duplicate-name A; and 1 more");
    assert_eq!(error, Error::Dictionary(found));
    assert_eq!(faults(USAGE), Ok(vec![]));
    // no character of UTF-8 begins with this byte
    assert_eq!(faults(b"; \xff").unwrap()[0].to_string(), "1:3: not text");
    assert_eq!((Kind::Other(99).to_string(), Kind::DuplicateName.number()), ("kind 99".into(), 11));
}

#[test]
fn rendered() {
    assert_eq!(render("%avp   A 1\n Time any ; a comment").as_deref(), Ok("%avp A 1 Time any\n"));
    assert!(matches!(render("xx"), Err(Error::Dictionary(faults)) if faults[0].kind == Kind::Syntax));
}

#[test]
fn files() {
    let folder = std::env::temp_dir().join(format!("wittalen-{}", std::process::id()));
    std::fs::create_dir(&folder).unwrap();
    let (first, second) = (folder.join("first"), folder.join("second"));
    std::fs::write(&first, "%avp Usage 9002 Unsigned32 any ; a comment").unwrap();
    std::fs::write(&second, "<Report> ::= < Diameter Header: 302, REQ > { Usage }").unwrap();
    let opened = Dictionary::open([&first, &second]).unwrap().check(&report(1), kept());
    let missing = Dictionary::open([folder.join("none")]).unwrap_err();
    // the text ends on its first line
    std::fs::write(&first, "xx").unwrap();
    let wrong = Dictionary::open([&first]).unwrap_err();
    std::fs::remove_dir_all(&folder).unwrap();
    assert!(opened.unwrap().is_valid());
    assert!(matches!(&missing, OpenError::File(file, _) if file.ends_with("none")) && missing.to_string().contains("none: "));
    assert!(matches!(wrong, OpenError::Text(Error::Dictionary(faults)) if faults[0].position.is_some_and(|(line, _)| line == 1)));
}

#[test]
fn streams() {
    let base = Dictionary::base().unwrap();
    let mut stream = base.stream(kept()).unwrap();
    drop(base);
    let all = [bytes(WATCHDOG), bytes(BARE)].concat();
    let mut found = Vec::new();
    for byte in &all {
        let fed = stream.feed(std::slice::from_ref(byte)).unwrap();
        assert!(fed.rest.is_empty());
        if fed.is_done {
            assert_eq!(stream.levels(), Ok(0));
            found.push(stream.again().unwrap().is_valid());
        }
    }
    assert_eq!(found, [true, false]);
    let fed = stream.feed(&all).unwrap();
    assert_eq!((fed.rest, fed.is_done), (&all[44..], true));
    assert!(stream.finish().unwrap().is_valid());
}

#[test]
fn what_breaks() {
    let (ours, theirs) = (dictionary("1*3 { Usage }"), dictionary("{ Usage }"));
    let line = "Report: too-many Usage: 1..3 sent, 1 accepted\n";
    let listed = Breaking { sends: Sends::Listed, ..Default::default() };
    let rows = [
        (&ours, &theirs, listed.clone(), line, false),
        (&ours, &theirs, Breaking { accepted: line.into(), ..listed.clone() }, "nothing else breaks\n", true),
        (&theirs, &ours, listed.clone(), "nothing breaks\n", true),
        // one dictionary on both sides
        (&ours, &ours, Breaking { commands: vec!["Report".into()], ..listed.clone() }, "nothing breaks\n", true),
    ];
    for (a, b, question, text, is_safe) in rows {
        let found = question.ask(a, b).unwrap();
        assert_eq!((found.text.as_str(), found.is_safe), (text, is_safe));
    }
    let error = Breaking { commands: vec!["Report".into(), "Other".into()], ..listed.clone() }.ask(&ours, &theirs).unwrap_err();
    assert_eq!(error, Error::Input { kind: Kind::NoCommand, line: 2, column: 0 });
    assert_eq!(error.to_string(), "line 2: no command");
    let error = Breaking { accepted: "x\n".into(), ..listed }.ask(&ours, &theirs).unwrap_err();
    assert!(matches!(error, Error::Input { kind: Kind::Syntax, .. }));
}

#[test]
fn compared() {
    let (ours, theirs) = (dictionary("1*3 { Usage }"), dictionary("{ Usage }"));
    let table = "command Report = Report\navp Usage = Usage\n";
    for (a, b, holds, line) in
        [(&ours, &theirs, false, "no command Report = Report N2"), (&theirs, &ours, true, "yes"), (&ours, &ours, true, "yes")]
    {
        let found = compare(a, b, Unknown::Kept, table).unwrap();
        assert_eq!((found.holds, found.line.as_str()), (holds, line));
    }
    let error = compare(&ours, &theirs, Unknown::Kept, "avp Usage = Usage\n  xx").unwrap_err();
    assert_eq!((error.to_string(), error), ("2:3: syntax".into(), Error::Input { kind: Kind::Syntax, line: 2, column: 3 }));
}

#[test]
fn explained() {
    let text = format!("{USAGE}{{ Usage }}");
    assert!(explain(&text, &report(2), kept()).unwrap().contains("byte 32: "));
    assert_eq!(explain(&text, &report(1), kept()).as_deref(), Ok(""));
}

#[test]
fn words_of_errors() {
    for (error, wanted) in [
        (Error::NoMemory, "no memory"),
        (Error::Spent, "spent"),
        (Error::BadArgument, "bad argument"),
        (Error::Status(99), "status 99"),
        (Error::Version(2), "libdia has the version 2, and not 1"),
    ] {
        assert_eq!(error.to_string(), wanted);
    }
}
