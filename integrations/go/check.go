package dia

/*
#include <dia.h>
*/
import "C"

import (
	"errors"
	"runtime"
	"unsafe"
)

// ErrArgument says that an argument has no meaning: a number that is none of its constants, offsets that don't ascend within the bytes,
// or a verdict of another dictionary.
var ErrArgument = errors.New("dia: an argument has no meaning")

// An Outcome is the kind of a verdict.
type Outcome uint32

// The outcomes.
const (
	Valid     Outcome = C.DIA_VALID
	Fault     Outcome = C.DIA_FAULT
	Truncated Outcome = C.DIA_TRUNCATED
	Trailing  Outcome = C.DIA_TRAILING
)

// A Subject is what a fault is about.
type Subject uint32

// The subjects.
const (
	Nothing  Subject = C.DIA_ABOUT_NOTHING
	AVP      Subject = C.DIA_ABOUT_AVP
	Wildcard Subject = C.DIA_ABOUT_WILDCARD // AVPs that no rule lists are missing
)

// Unknown is what becomes of AVPs that the dictionary doesn't know.
type Unknown uint32

// With Kept they are accepted where their M bit is clear, and with Refused they are a fault.
const (
	Kept    Unknown = C.DIA_KEPT
	Refused Unknown = C.DIA_UNKNOWN_REFUSED
)

// A Reason is why a message isn't valid (docs/FAULTS.md).
type Reason uint32

// String is the word of the reason, as lines of `diacmd check` have it.
func (r Reason) String() string {
	var out [C.DIA_MAX_WORD]byte
	var count C.size_t
	if C.dia_reason_word(C.uint32_t(r), (*C.uint8_t)(unsafe.Pointer(&out[0])), C.DIA_MAX_WORD, &count) != C.DIA_OK {
		return "another"
	}
	return string(out[:count])
}

// A Verdict is what a check says of a message. Fields that its outcome doesn't have are 0.
type Verdict struct {
	Outcome   Outcome
	Command   uint32 // of Valid, for CommandName
	Code      uint32 // of Fault: the Result-Code (RFC 6733 section 7.1)
	Place     uint32 // of Fault: the offset in bytes
	Reason    Reason
	Subject   Subject
	AVPCode   uint32 // of the subject AVP
	AVPVendor uint32 // 0: none
}

func verdictOf(v *C.dia_verdict) Verdict {
	return Verdict{Outcome(v.outcome), uint32(v.command), uint32(v.code), uint32(v.place), Reason(v.reason), Subject(v.subject),
		uint32(v.avp_code), uint32(v.avp_vendor)}
}

// Check checks the bytes of one message.
func (d *Dictionary) Check(message []byte, unknown Unknown) (Verdict, error) {
	first, count := bytesOf(message)
	var verdict C.dia_verdict
	d.lock.Lock()
	defer d.lock.Unlock()
	if d.handle == nil {
		return Verdict{}, ErrClosed
	}
	status := C.dia_check(d.handle, C.uint32_t(unknown), d.levels, first, count, &verdict)
	runtime.KeepAlive(message)
	if status != C.DIA_OK {
		return Verdict{}, problemOf(status)
	}
	return verdictOf(&verdict), nil
}

// CheckMany checks messages that follow each other in all, and end at these offsets, which ascend. It takes less time for each message
// than Check.
func (d *Dictionary) CheckMany(all []byte, ends []uint, unknown Unknown) ([]Verdict, error) {
	if len(ends) == 0 {
		return nil, nil
	}
	first, count := bytesOf(all)
	found := make([]C.dia_verdict, len(ends))
	d.lock.Lock()
	defer d.lock.Unlock()
	if d.handle == nil {
		return nil, ErrClosed
	}
	// size_t is Go's uint on the machines of this package
	status := C.dia_check_many(d.handle, C.uint32_t(unknown), d.levels, first, count, (*C.size_t)(unsafe.Pointer(&ends[0])),
		C.size_t(len(ends)), &found[0], C.size_t(len(found)))
	runtime.KeepAlive(all)
	if status != C.DIA_OK {
		return nil, problemOf(status)
	}
	verdicts := make([]Verdict, len(ends))
	for i := range found {
		verdicts[i] = verdictOf(&found[i])
	}
	return verdicts, nil
}

// CheckJSON is the object that `diacmd check --json` writes of a message (docs/JSON.md).
func (d *Dictionary) CheckJSON(message []byte, unknown Unknown) ([]byte, error) {
	first, count := bytesOf(message)
	var line C.dia_text
	d.lock.Lock()
	defer d.lock.Unlock()
	if d.handle == nil {
		return nil, ErrClosed
	}
	if status := C.dia_check_json(d.handle, C.uint32_t(unknown), d.levels, first, count, &line); status != C.DIA_OK {
		return nil, problemOf(status)
	}
	defer C.dia_text_close(&line)
	return []byte(textOf(&line)), nil
}

// Describe is the line that `diacmd check` writes of a verdict of this dictionary.
func (d *Dictionary) Describe(v Verdict) (string, error) {
	verdict := C.dia_verdict{outcome: C.uint32_t(v.Outcome), command: C.uint32_t(v.Command), code: C.uint32_t(v.Code),
		place: C.uint32_t(v.Place), reason: C.uint32_t(v.Reason), subject: C.uint32_t(v.Subject), avp_code: C.uint32_t(v.AVPCode),
		avp_vendor: C.uint32_t(v.AVPVendor)}
	var out [C.DIA_MAX_LINE]byte
	var count C.size_t
	d.lock.Lock()
	defer d.lock.Unlock()
	if d.handle == nil {
		return "", ErrClosed
	}
	status := C.dia_verdict_text(d.handle, &verdict, (*C.uint8_t)(unsafe.Pointer(&out[0])), C.DIA_MAX_LINE, &count)
	if status != C.DIA_OK {
		return "", problemOf(status)
	}
	return string(out[:count]), nil
}

// Answer makes the answer of these names, Origin-Host and Origin-Realm, to a request that has a fault (RFC 6733 sections 6.2 and 7), and
// the verdict on the message. The answer is nil where the message gets none: it is valid, or no whole request.
func (d *Dictionary) Answer(message []byte, host, realm string, unknown Unknown) ([]byte, Verdict, error) {
	first, count := bytesOf(message)
	hostFirst, hostCount := bytesOf([]byte(host))
	realmFirst, realmCount := bytesOf([]byte(realm))
	var made C.dia_text
	var form C.uint32_t
	var verdict C.dia_verdict
	d.lock.Lock()
	defer d.lock.Unlock()
	if d.handle == nil {
		return nil, Verdict{}, ErrClosed
	}
	status := C.dia_answer(d.handle, C.uint32_t(unknown), d.levels, hostFirst, hostCount, realmFirst, realmCount, first, count, &made,
		&form, &verdict)
	runtime.KeepAlive(message)
	switch status {
	case C.DIA_OK:
		defer C.dia_text_close(&made)
		return []byte(textOf(&made)), verdictOf(&verdict), nil
	case C.DIA_NONE:
		return nil, verdictOf(&verdict), nil
	}
	return nil, Verdict{}, problemOf(status)
}
