package dia

import (
	"bytes"
	"encoding/binary"
	"encoding/hex"
	"errors"
	"net"
	"sync"
	"testing"
	"time"
)

// usage declares an AVP and the head of a request of it, whose rules follow.
const usage = "%avp Usage 9002 Unsigned32 any\n<Report> ::= < Diameter Header: 302, REQ > "

// twice is a request of the command 302 with two Usage.
var twice = unhex("0100002c8000012e000000000000000000000000" + "0000232a0000000c00000001" + "0000232a0000000c00000001")

// watchdog is a request of the command 280 (RFC 6733 section 5.5.1): Origin-Host `a.b`, Origin-Realm `b`.
var watchdog = unhex("0100002c80000118000000000000000100000002000001084000000b612e6200000001284000000962000000")

// bare is the same without AVPs.
var bare = append([]byte{1, 0, 0, 20}, watchdog[4:20]...)

func unhex(digits string) []byte {
	found, err := hex.DecodeString(digits)
	if err != nil {
		panic(err)
	}
	return found
}

func made(t *testing.T, text string) *Dictionary {
	t.Helper()
	d, err := New([]byte(text))
	if err != nil {
		t.Fatal(err)
	}
	t.Cleanup(d.Close)
	return d
}

func base(t *testing.T) *Dictionary {
	t.Helper()
	d, err := Base()
	if err != nil {
		t.Fatal(err)
	}
	t.Cleanup(d.Close)
	return d
}

func lineOf(t *testing.T, d *Dictionary, message []byte) string {
	t.Helper()
	v, err := d.Check(message, Kept)
	if err != nil {
		t.Fatal(err)
	}
	line, err := d.Describe(v)
	if err != nil {
		t.Fatal(err)
	}
	return line
}

func TestCheck(t *testing.T) {
	rfc, one, two := base(t), made(t, usage+"{ Usage }"), made(t, usage+"1*2 { Usage }")
	for _, row := range []struct {
		name    string
		d       *Dictionary
		message []byte
		wanted  string
	}{
		{"valid", rfc, watchdog, "valid DWR"},
		{"missing", rfc, bare, "fault 5005 at 20 missing Origin-Host"},
		{"too many", one, twice, "fault 5009 at 32 too-many Usage"},
		{"two of two", two, twice, "valid Report"},
		{"cut", rfc, watchdog[:43], "truncated"},
		{"no byte", rfc, nil, "truncated"},
		{"more", rfc, append(append([]byte{}, watchdog...), 0), "trailing"},
		{"version", rfc, append([]byte{2}, watchdog[1:]...), "fault 5011 at 0 version -"},
	} {
		if found := lineOf(t, row.d, row.message); found != row.wanted {
			t.Errorf("%s: %s, wanted %s", row.name, found, row.wanted)
		}
	}
}

func TestVerdict(t *testing.T) {
	v, err := made(t, usage+"{ Usage }").Check(twice, Kept)
	wanted := Verdict{Outcome: Fault, Code: 5009, Place: 32, Reason: 11, Subject: AVP, AVPCode: 9002}
	if err != nil || v != wanted || v.Reason.String() != "too-many" || Reason(99).String() != "another" {
		t.Error(v, err, v.Reason)
	}
}

func TestJSON(t *testing.T) {
	object, err := made(t, usage+"{ Usage }").CheckJSON(twice, Kept)
	if err != nil || !bytes.Contains(object, []byte(`"reason":"too-many"`)) {
		t.Error(string(object), err)
	}
}

func TestUnknown(t *testing.T) {
	d := made(t, "<Any> ::= < Diameter Header: 302, REQ > *[ AVP ]")
	for unknown, wanted := range map[Unknown]Outcome{Kept: Valid, Refused: Fault} {
		if v, err := d.Check(twice, unknown); err != nil || v.Outcome != wanted {
			t.Error(unknown, v, err)
		}
	}
	if _, err := d.Check(twice, 7); !errors.Is(err, ErrArgument) {
		t.Error(err)
	}
}

func TestLevels(t *testing.T) {
	d := made(t, "G ::= < AVP Header: 3 > *[ AVP ]\n<Any> ::= < Diameter Header: 302, REQ > *[ G ]")
	// a group of 8 bytes in a group of 16
	message := unhex("010000248000012e000000000000000000000000" + "0000000300000010" + "0000000300000008")
	for levels, wanted := range map[uint32]string{1: "fault 5012 at 28 depth G", 2: "valid Any"} {
		limited, err := d.WithLevels(levels)
		if err != nil {
			t.Fatal(err)
		}
		if found := lineOf(t, limited, message); found != wanted {
			t.Error(levels, found)
		}
		if shared, err := limited.Share(); err != nil || lineOf(t, shared, message) != wanted {
			t.Error(levels, err)
		}
	}
	if found := lineOf(t, d, message); found != "valid Any" {
		t.Error(found)
	}
}

func TestMany(t *testing.T) {
	d := base(t)
	all := bytes.Join([][]byte{watchdog, bare, watchdog}, nil)
	found, err := d.CheckMany(all, []uint{44, 64, 108}, Kept)
	if err != nil || len(found) != 3 {
		t.Fatal(found, err)
	}
	for i, wanted := range []Outcome{Valid, Fault, Valid} {
		if found[i].Outcome != wanted {
			t.Error(i, found[i])
		}
	}
	for _, ends := range [][]uint{{44, 20}, {109}} {
		if _, err := d.CheckMany(all, ends, Kept); !errors.Is(err, ErrArgument) {
			t.Error(ends, err)
		}
	}
	if found, err := d.CheckMany(nil, nil, Kept); err != nil || found != nil {
		t.Error(found, err)
	}
}

func TestAnswer(t *testing.T) {
	d := base(t)
	answer, v, err := d.Answer(bare, "a.b", "b", Kept)
	if err != nil || v.Code != 5005 {
		t.Fatal(v, err)
	}
	// the R flag, and the identifiers (RFC 6733 section 6.2)
	if answer[4]&0x80 != 0 || !bytes.Equal(answer[12:20], bare[12:20]) || binary.BigEndian.Uint32(answer)&0xffffff != uint32(len(answer)) {
		t.Error(hex.EncodeToString(answer))
	}
	// Result-Code 5005, and an example of Origin-Host in Failed-AVP (sections 7.1.5 and 7.5)
	for _, part := range []string{"0000010c4000000c0000138d", "00000117400000140000010840000009"} {
		if !bytes.Contains(answer, unhex(part)) {
			t.Error(part, hex.EncodeToString(answer))
		}
	}
	if answer, v, err := d.Answer(watchdog, "a.b", "b", Kept); answer != nil || v.Outcome != Valid || err != nil {
		t.Error(answer, v, err)
	}
	if _, _, err := d.Answer(bare, "", "b", Kept); !errors.Is(err, ErrArgument) {
		t.Error(err)
	}
}

func TestNoDictionary(t *testing.T) {
	_, err := New([]byte("%avp A 1 Time any\n%avp A 2 Time any\n"))
	var fault *DictionaryError
	// the second A is on line 2, in column 6
	wanted := TextFault{DuplicateName, 2, 6, "A", ""}
	if !errors.As(err, &fault) || len(fault.Faults) != 1 || fault.Faults[0] != wanted || err.Error() != "dia: no dictionary: 2:6: duplicate-name A" {
		t.Error(err)
	}
	faults, err := Faults([]byte("%avp A 1 Time any\n%avp A 2 Time any\n<R> ::= < Diameter Header: 1, REQ > { X }"))
	if err != nil || len(faults) != 2 || faults[1].String() != "3:39: undefined-name R X" {
		t.Error(faults, err)
	}
	if faults, err := Faults([]byte(usage)); err != nil || len(faults) != 0 {
		t.Error(faults, err)
	}
	if Kind(99).String() != "kind 99" {
		t.Error(Kind(99))
	}
}

func TestRender(t *testing.T) {
	text, err := Render([]byte("%avp   A 1\n Time any ; a comment"))
	if err != nil || text != "%avp A 1 Time any\n" {
		t.Error(text, err)
	}
	var fault *DictionaryError
	if _, err := Render([]byte("xx")); !errors.As(err, &fault) || fault.Faults[0].Kind != Syntax || fault.Faults[0].Line != 1 {
		t.Error(err)
	}
}

func TestCompare(t *testing.T) {
	ours, theirs := made(t, usage+"1*3 { Usage }"), made(t, usage+"{ Usage }")
	const table = "command Report = Report\navp Usage = Usage\n"
	if holds, line, err := Compare(ours, theirs, Kept, table); err != nil || holds || line != "no command Report = Report N2" {
		t.Error(holds, line, err)
	}
	if holds, line, err := Compare(theirs, ours, Kept, table); err != nil || !holds || line != "yes" {
		t.Error(holds, line, err)
	}
	var refused *InputError
	if _, _, err := Compare(ours, theirs, Kept, "\nx"); !errors.As(err, &refused) || *refused != (InputError{Syntax, 2, 1}) || err.Error() != "dia: 2:1: syntax" {
		t.Error(err)
	}
}

func TestStream(t *testing.T) {
	d := base(t)
	s, err := d.Stream(Kept)
	if err != nil {
		t.Fatal(err)
	}
	d.Close()
	all := append(append([]byte{}, watchdog...), bare...)
	for _, wanted := range []Verdict{{Outcome: Valid}, {Outcome: Fault, Code: 5005, Place: 20, Reason: 9, Subject: AVP, AVPCode: 264}} {
		for done := false; !done; {
			// a byte at a time
			rest, whole, err := s.Feed(all[:1])
			if err != nil || len(rest) != 0 {
				t.Fatal(rest, err)
			}
			all, done = all[1:], whole
		}
		found, err := s.Again()
		found.Command = 0
		if err != nil || found != wanted {
			t.Error(found, err)
		}
	}
	if v, err := s.Finish(); err != nil || v.Outcome != Truncated {
		t.Error(v, err)
	}
	if _, _, err := s.Feed(nil); !errors.Is(err, ErrClosed) {
		t.Error(err)
	}
}

func TestSplit(t *testing.T) {
	all := bytes.Join([][]byte{watchdog, bare, watchdog[:30]}, nil)
	found := Split(all)
	if len(found) != 3 || !bytes.Equal(found[0], watchdog) || !bytes.Equal(found[1], bare) || len(found[2]) != 30 {
		t.Error(found)
	}
	if _, err := MessageLength(watchdog[1:]); err != ErrMessage {
		t.Error(err)
	}
}

func TestHeader(t *testing.T) {
	// a CCR of RFC 8506: R and P are set
	h, err := ReadHeader(unhex("0100002cc0000110000000040000000500000006"))
	if err != nil || h != (Header{44, 0xc0, 272, 4, 5, 6}) || !h.IsRequest() || !h.IsProxiable() || h.IsError() {
		t.Error(h, err)
	}
	for _, wrong := range [][]byte{nil, watchdog[:19], watchdog[1:]} {
		if h, err := ReadHeader(wrong); err != ErrMessage {
			t.Error(h, err)
		}
	}
}

func ends(t *testing.T, ours, theirs Config) (*Peer, *Peer) {
	t.Helper()
	first, err := NewPeer(Initiator, ours)
	if err != nil {
		t.Fatal(err)
	}
	second, err := NewPeer(Responder, theirs)
	if err != nil {
		t.Fatal(err)
	}
	t.Cleanup(first.Close)
	t.Cleanup(second.Close)
	return first, second
}

// sent is the only output, which is a message.
func sent(t *testing.T, outputs []Output, err error) []byte {
	t.Helper()
	if err != nil || len(outputs) != 1 || outputs[0].Message == nil {
		t.Fatal(outputs, err)
	}
	return outputs[0].Message
}

func TestPeers(t *testing.T) {
	apps := []Application{{ID: 4}, {ID: 3, Accounting: true}}
	first, second := ends(t, Config{Host: "a.b", Realm: "b", Product: "p", Applications: apps[:1], Values: true},
		Config{Host: "c.d", Realm: "d", Product: "q", Applications: apps, Values: true})
	if outputs, err := second.Start(); err != nil || len(outputs) != 0 {
		t.Fatal(outputs, err)
	}
	cer := func() []byte { outputs, err := first.Start(); return sent(t, outputs, err) }()
	cea := func() []byte { outputs, err := second.Receive(cer); return sent(t, outputs, err) }()
	if outputs, err := first.Receive(cea); err != nil || len(outputs) != 0 {
		t.Fatal(outputs, err)
	}
	for _, end := range []*Peer{first, second} {
		state, err := end.State()
		common, _ := end.Common()
		serves, _ := end.Serves(4)
		other, _ := end.Serves(3)
		if err != nil || state != Open || len(common) != 1 || common[0] != apps[0] || !serves || other || end.Timer() != TimerQuiet {
			t.Error(state, common, serves, other, end.Timer(), err)
		}
	}
	host, _ := first.Host()
	realm, _ := first.Realm()
	product, _ := first.Product()
	result, err := first.Result()
	if err != nil || host != "c.d" || realm != "d" || product != "q" || result != 2001 {
		t.Error(host, realm, product, result, err)
	}
	dpr := func() []byte { outputs, err := first.Stop(Busy); return sent(t, outputs, err) }()
	outputs, err := second.Receive(dpr)
	if err != nil || len(outputs) != 2 || outputs[1].Message != nil || outputs[1].Why != WhyPeerStopped {
		t.Fatal(outputs, err)
	}
	if cause, came, err := second.Cause(); err != nil || !came || cause != Busy {
		t.Error(cause, came, err)
	}
	if outputs, err := first.Receive(outputs[0].Message); err != nil || len(outputs) != 1 || outputs[0].Why != WhyStopped {
		t.Error(outputs, err)
	}
	if state, err := first.State(); err != nil || state != Closed {
		t.Error(state, err)
	}
}

func TestNames(t *testing.T) {
	for name, found := range map[string]string{"OPEN": Open.String(), "CLOSED": Closed.String(), "STOPPED": WhyStopped.String(),
		"INVALID": WhyInvalid.String(), "ANOTHER_9": State(9).String()} {
		if name != found {
			t.Error(name, found)
		}
	}
}

func TestRefusedConfigs(t *testing.T) {
	apps := []Application{{ID: 4}}
	for field, config := range map[string]Config{
		"Host": {Realm: "b", Applications: apps}, "Realm": {Host: "a", Applications: apps}, "Applications": {Host: "a", Realm: "b"},
		"Addresses": {Host: "a", Realm: "b", Applications: apps, Addresses: []net.IP{{1, 2}}},
	} {
		var refused *ConfigError
		if _, err := NewPeer(Initiator, config); !errors.As(err, &refused) || refused.Field != field {
			t.Error(field, err)
		}
	}
}

func TestQuietTime(t *testing.T) {
	for _, tw := range []time.Duration{0, 6 * time.Second, 30 * time.Second} {
		least := tw
		if least < 6*time.Second {
			least = 6 * time.Second
		}
		if quiet, err := QuietTime(tw); err != nil || quiet < least-2*time.Second || quiet > least+2*time.Second {
			t.Error(tw, quiet, err)
		}
	}
}

func TestBreaking(t *testing.T) {
	ours, theirs := made(t, usage+"1*3 { Usage }"), made(t, usage+"{ Usage }")
	const line = "Report: too-many Usage: 1..3 sent, 1 accepted\n"
	for _, row := range []struct {
		a, b *Dictionary
		q    Question
		text string
		safe bool
	}{
		{ours, theirs, Question{Sends: SendsListed}, line, false},
		{ours, theirs, Question{Sends: SendsListed, Accepted: line}, "nothing else breaks\n", true},
		{theirs, ours, Question{Sends: SendsListed}, "nothing breaks\n", true},
		{ours, ours, Question{Sends: SendsListed, Commands: []string{"Report"}}, "nothing breaks\n", true},
	} {
		if text, safe, err := Breaking(row.a, row.b, row.q); err != nil || text != row.text || safe != row.safe {
			t.Error(text, safe, err)
		}
	}
	var refused *InputError
	_, _, err := Breaking(ours, theirs, Question{Sends: SendsListed, Commands: []string{"Report", "Other"}})
	if !errors.As(err, &refused) || *refused != (InputError{NoCommand, 2, 0}) || err.Error() != "dia: line 2: no command" {
		t.Error(err)
	}
	if _, _, err := Breaking(ours, theirs, Question{Sends: SendsListed, Accepted: "x\n"}); !errors.As(err, &refused) || refused.Kind != Syntax {
		t.Error(err)
	}
}

func TestGoroutines(t *testing.T) {
	d := base(t)
	var all sync.WaitGroup
	for i := 0; i < 8; i++ {
		shared := d
		if i%2 == 0 {
			var err error
			if shared, err = d.Share(); err != nil {
				t.Fatal(err)
			}
		}
		all.Add(1)
		go func() {
			defer all.Done()
			for i := 0; i < 1000; i++ {
				if v, err := shared.Check(watchdog, Kept); err != nil || v.Outcome != Valid {
					t.Error(v, err)
					return
				}
			}
		}()
	}
	all.Wait()
}

func TestClosed(t *testing.T) {
	d, err := Base()
	if err != nil {
		t.Fatal(err)
	}
	shared, err := d.Share()
	if err != nil {
		t.Fatal(err)
	}
	d.Close()
	d.Close()
	if _, err := d.Check(watchdog, Kept); !errors.Is(err, ErrClosed) {
		t.Error(err)
	}
	if _, err := d.Share(); !errors.Is(err, ErrClosed) {
		t.Error(err)
	}
	if found := lineOf(t, shared, watchdog); found != "valid DWR" {
		t.Error(found)
	}
	shared.Close()
}

func BenchmarkCheck(b *testing.B) {
	d, err := Base()
	if err != nil {
		b.Fatal(err)
	}
	for i := 0; i < b.N; i++ {
		if _, err := d.Check(watchdog, Kept); err != nil {
			b.Fatal(err)
		}
	}
}

func TestParts(t *testing.T) {
	d := made(t, usage+"{ Usage }\n%avp B 3 vendor 10415 Grouped must\nB ::= < AVP Header: 3 10415 > *[ Usage ]")
	commands, err := d.Commands()
	// the only group has the number 0
	if err != nil || len(commands) != 1 || commands[0] != (Command{"Report", 1, 302, Request, ProxyClear, false, 0}) {
		t.Error(commands, err)
	}
	entries, err := d.Entries()
	if err != nil || len(entries) != 2 || entries[0] != (Entry{"Usage", 9002, 0, 4, MandatoryAny}) ||
		entries[1] != (Entry{"B", 3, 10415, 8, MandatoryMust}) {
		t.Error(entries, err)
	}
	d.Close()
	if _, err := d.Commands(); err != ErrClosed {
		t.Error(err)
	}
	if _, err := d.Entries(); err != ErrClosed {
		t.Error(err)
	}
}

func TestFormats(t *testing.T) {
	// each format is that of the AVP which a dictionary declares with its word
	for f := OctetString; f <= QoSFilterRule; f++ {
		text := "%avp A 1 " + f.String() + " any"
		if f == Grouped {
			text += "\nA ::= < AVP Header: 1 > *[ AVP ]"
		}
		if entries, err := made(t, text).Entries(); err != nil || len(entries) != 1 || entries[0].Format != f {
			t.Error(f, entries, err)
		}
	}
	if Format(99).String() != "another" {
		t.Error(Format(99))
	}
}

func TestShow(t *testing.T) {
	d := made(t, usage+"{ Usage }")
	lines, whole, err := d.Show(twice)
	if err != nil || !whole || !bytes.Contains([]byte(lines), []byte("Usage 1")) {
		t.Error(lines, whole, err)
	}
	// the second AVP has an AVP Length of 7
	cut := append([]byte{}, twice...)
	cut[39] = 7
	if lines, whole, err := d.Show(cut); err != nil || whole {
		t.Error(lines, whole, err)
	}
	if _, _, err := d.Show(twice[1:]); err != ErrMessage {
		t.Error(err)
	}
}

func TestAVPsAt(t *testing.T) {
	d := made(t, "%avp A 1 OctetString any\nB ::= < AVP Header: 2 > *[ A ]")
	// B at 20 has two A of 8 bytes, at 28 and 36
	message := unhex("0100002c8000012e000000000000000000000000" + "0000000200000018" + "0000000100000008" + "0000000100000008")
	found, err := d.AVPsAt(message, 40)
	if err != nil || len(found) != 2 || found[0].Place != 20 || found[0].Name != "B" || found[1].Place != 36 || found[1].Depth != 1 {
		t.Error(found, err)
	}
	if found, end, err := d.AVPs(message); err != nil || len(found) != 3 || end != 44 || found[1].Depth != 1 || found[2].Place != 36 {
		t.Error(found, end, err)
	}
	if found, err := d.AVPsAt(message, 19); err != nil || len(found) != 0 {
		t.Error(found, err)
	}
	if _, err := d.AVPsAt(message[1:], 20); err != ErrMessage {
		t.Error(err)
	}
}

func TestFindAVP(t *testing.T) {
	d := made(t, "%avp A 1 OctetString any\n%avp C 1 vendor 10415 OctetString any\nB ::= < AVP Header: 2 > *[ A ]")
	// B at 20 has an A of 8 bytes at 28; then follow C at 36, of 12 bytes, A at 48, of 9, and A at 60
	message := unhex("010000448000012e000000000000000000000000" + "00000002000000100000000100000008" + "000000018000000c000028af" +
		"0000000100000009ff000000" + "0000000100000008")
	found, has, err := d.FindAVP(message, 1, 0)
	if err != nil || !has || found != (MessageAVP{48, 0, 9, 56, 1, 1, 0, 0, OctetString, "A"}) {
		t.Error(found, has, err)
	}
	if found, has, err := d.FindAVP(message, 1, 10415); err != nil || !has || found.Place != 36 {
		t.Error(found, has, err)
	}
	if _, has, err := d.FindAVP(message, 3, 0); err != nil || has {
		t.Error(has, err)
	}
	if _, _, err := d.FindAVP(message[1:], 1, 0); err != ErrMessage {
		t.Error(err)
	}
	// the A in B has an AVP Length of 7: others follow B
	message[35] = 7
	if found, bad, err := d.AVPs(message); err != nil || len(found) != 4 || bad != 28 || found[1].Place != 36 {
		t.Error(found, bad, err)
	}
}

func TestExplain(t *testing.T) {
	text := []byte(usage + "{ Usage }")
	note, err := Explain(text, twice, Kept)
	if err != nil || !bytes.Contains([]byte(note), []byte("byte 32: ")) {
		t.Error(note, err)
	}
	if note, err := Explain(text, twice[:20], Unknown(2)); err != ErrArgument {
		t.Error(note, err)
	}
}
