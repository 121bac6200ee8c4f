package dia

/*
#include <dia.h>
*/
import "C"

import (
	"errors"
	"runtime"
	"unsafe"
)

// ErrMessage says that bytes are no message: fewer or more than the Message Length, or no header of a message begins them.
var ErrMessage = errors.New("dia: the bytes are no message")

// A Class is the class of the messages of a command (RFC 6733 section 3).
type Class uint32

// The classes. ErrorMessage is that of the error messages of all commands (section 7.2).
const (
	Request      Class = C.DIA_CLASS_REQUEST
	Reply        Class = C.DIA_CLASS_ANSWER
	ErrorMessage Class = C.DIA_CLASS_ERROR
)

// A Proxiable is what the P flag of the messages of a command may be.
type Proxiable uint32

// What the P flag may be.
const (
	ProxyClear  Proxiable = C.DIA_PROXY_CLEAR
	ProxySet    Proxiable = C.DIA_PROXY_SET
	ProxyEither Proxiable = C.DIA_PROXY_EITHER
)

// A Mandatory is what the M flag of an AVP may be.
type Mandatory uint32

// What the M flag may be.
const (
	MandatoryAny     Mandatory = C.DIA_MANDATORY_ANY
	MandatoryMust    Mandatory = C.DIA_MANDATORY_MUST
	MandatoryMustNot Mandatory = C.DIA_MANDATORY_MUST_NOT
)

// A Format is a data format of docs/FORMATS.md.
type Format uint32

// The formats. NoFormat is that of an AVP that the dictionary doesn't have.
const (
	NoFormat         Format = C.DIA_F_UNKNOWN
	OctetString      Format = C.DIA_F_OCTET_STRING
	Integer32        Format = C.DIA_F_INTEGER32
	Integer64        Format = C.DIA_F_INTEGER64
	Unsigned32       Format = C.DIA_F_UNSIGNED32
	Unsigned64       Format = C.DIA_F_UNSIGNED64
	Float32          Format = C.DIA_F_FLOAT32
	Float64          Format = C.DIA_F_FLOAT64
	Grouped          Format = C.DIA_F_GROUPED
	Address          Format = C.DIA_F_ADDRESS
	Time             Format = C.DIA_F_TIME
	UTF8String       Format = C.DIA_F_UTF8STRING
	DiameterIdentity Format = C.DIA_F_DIAMETER_IDENTITY
	DiameterURI      Format = C.DIA_F_DIAMETER_URI
	Enumerated       Format = C.DIA_F_ENUMERATED
	IPFilterRule     Format = C.DIA_F_IP_FILTER_RULE
	QoSFilterRule    Format = C.DIA_F_QOS_FILTER_RULE
)

var formats = [...]string{"none", "OctetString", "Integer32", "Integer64", "Unsigned32", "Unsigned64", "Float32", "Float64", "Grouped",
	"Address", "Time", "UTF8String", "DiameterIdentity", "DiameterURI", "Enumerated", "IPFilterRule", "QoSFilterRule"}

// String is the word of the format in a dictionary.
func (f Format) String() string {
	if int(f) < len(formats) {
		return formats[f]
	}
	return "another"
}

// A Command is a command of a dictionary (RFC 6733 section 3.2).
type Command struct {
	Name           string
	Number         uint32 // Command of a Verdict
	Code           uint32 // Command Code; 0 of ErrorMessage
	Class          Class
	Proxiable      Proxiable
	HasApplication bool   // else it is of all applications that no other command of its code and class names
	Application    uint32 // the Application-ID
}

// An Entry is an AVP of a dictionary.
type Entry struct {
	Name         string
	Code, Vendor uint32 // Vendor 0: none
	Format       Format
	Mandatory    Mandatory
}

// A MessageAVP is an AVP of a message (RFC 6733 section 4.1). Offsets are in bytes from the first of the message.
type MessageAVP struct {
	Place, Depth, Length  uint
	DataPlace, DataLength uint
	Code, Vendor, Flags   uint32
	Format                Format // NoFormat where the dictionary doesn't have the AVP
	Name                  string // and then it is ""
}

// Commands are the commands of the dictionary, in its order.
func (d *Dictionary) Commands() ([]Command, error) {
	var count C.size_t
	var raw C.dia_command
	d.lock.Lock()
	defer d.lock.Unlock()
	if d.handle == nil {
		return nil, ErrClosed
	}
	if status := C.dia_dict_commands(d.handle, &count); status != C.DIA_OK {
		return nil, problemOf(status)
	}
	found := make([]Command, count)
	for i := range found {
		if status := C.dia_dict_command(d.handle, C.size_t(i), &raw); status != C.DIA_OK {
			return nil, problemOf(status)
		}
		name := C.GoBytes(unsafe.Pointer(&raw.name[0]), C.int(raw.name_count))
		found[i] = Command{string(name), uint32(raw.command), uint32(raw.code), Class(raw.kind), Proxiable(raw.proxy), raw.has_app == 1,
			uint32(raw.app)}
	}
	return found, nil
}

// Entries are the AVPs of the dictionary: those that are declared, in their order, and then groups without a declaration.
func (d *Dictionary) Entries() ([]Entry, error) {
	var count C.size_t
	var raw C.dia_entry
	d.lock.Lock()
	defer d.lock.Unlock()
	if d.handle == nil {
		return nil, ErrClosed
	}
	if status := C.dia_dict_avps(d.handle, &count); status != C.DIA_OK {
		return nil, problemOf(status)
	}
	found := make([]Entry, count)
	for i := range found {
		if status := C.dia_dict_avp(d.handle, C.size_t(i), &raw); status != C.DIA_OK {
			return nil, problemOf(status)
		}
		name := C.GoBytes(unsafe.Pointer(&raw.name[0]), C.int(raw.name_count))
		found[i] = Entry{string(name), uint32(raw.code), uint32(raw.vendor), Format(raw.format), Mandatory(raw.mandatory)}
	}
	return found, nil
}

// AVPsAt are the AVPs of a message that hold the byte at an offset, the outermost first: of a fault's place the groups around
// its AVP, and this AVP. The error is ErrMessage where the bytes are no message.
func (d *Dictionary) AVPsAt(message []byte, offset uint) ([]MessageAVP, error) {
	first, length := bytesOf(message)
	var verdict C.dia_verdict
	d.lock.Lock()
	defer d.lock.Unlock()
	if d.handle == nil {
		return nil, ErrClosed
	}
	raws := make([]C.dia_avp, 16)
	for {
		var count C.size_t
		status := C.dia_avps_at(d.handle, first, length, C.size_t(offset), &raws[0], C.size_t(len(raws)), &count, &verdict)
		runtime.KeepAlive(message)
		switch status {
		case C.DIA_OK:
			found := make([]MessageAVP, count)
			for i := range found {
				found[i] = avpOf(&raws[i])
			}
			return found, nil
		case C.DIA_REFUSED:
			return nil, ErrMessage
		case C.DIA_NO_ROOM:
			raws = make([]C.dia_avp, count)
		default:
			return nil, problemOf(status)
		}
	}
}

// AVPs are the AVPs of a message in the order of their bytes, each group that the dictionary has followed by its members. An AVP Length
// that no AVP can have ends its own level: bad is the offset of the first; else bad is the length of the message. The error is ErrMessage
// where the bytes are no message.
func (d *Dictionary) AVPs(message []byte) (avps []MessageAVP, bad uint, err error) {
	first, length := bytesOf(message)
	var verdict C.dia_verdict
	d.lock.Lock()
	defer d.lock.Unlock()
	if d.handle == nil {
		return nil, 0, ErrClosed
	}
	raws := make([]C.dia_avp, 32)
	for {
		var count, place C.size_t
		status := C.dia_avps(d.handle, first, length, &raws[0], C.size_t(len(raws)), &count, &place, &verdict)
		switch status {
		case C.DIA_OK:
			found := make([]MessageAVP, count)
			for i := range found {
				found[i] = avpOf(&raws[i])
			}
			return found, uint(place), nil
		case C.DIA_REFUSED:
			return nil, 0, ErrMessage
		case C.DIA_NO_ROOM:
			raws = make([]C.dia_avp, count)
		default:
			return nil, 0, problemOf(status)
		}
	}
}

// FindAVP is the first AVP of a message that has this code and this vendor, 0 for none, and is in no group, and whether there is one. The
// error is ErrMessage where the bytes are no message.
func (d *Dictionary) FindAVP(message []byte, code, vendor uint32) (found MessageAVP, has bool, err error) {
	first, length := bytesOf(message)
	var raw C.dia_avp
	var verdict C.dia_verdict
	d.lock.Lock()
	defer d.lock.Unlock()
	if d.handle == nil {
		return MessageAVP{}, false, ErrClosed
	}
	switch status := C.dia_avp_find(d.handle, first, length, C.uint32_t(code), C.uint32_t(vendor), &raw, &verdict); status {
	case C.DIA_OK:
		return avpOf(&raw), true, nil
	case C.DIA_NONE:
		return MessageAVP{}, false, nil
	case C.DIA_REFUSED:
		return MessageAVP{}, false, ErrMessage
	default:
		return MessageAVP{}, false, problemOf(status)
	}
}

func avpOf(raw *C.dia_avp) MessageAVP {
	name := C.GoBytes(unsafe.Pointer(&raw.name[0]), C.int(raw.name_count))
	return MessageAVP{uint(raw.place), uint(raw.depth), uint(raw.length), uint(raw.data_place), uint(raw.data_length), uint32(raw.code),
		uint32(raw.vendor), uint32(raw.flags), Format(raw.format), string(name)}
}

// Show is what `diacmd show` writes of a message, with the names of the dictionary. Whole is false where an AVP Length that no AVP can have
// ends the lines. The error is ErrMessage where the bytes are no message.
func (d *Dictionary) Show(message []byte) (lines string, whole bool, err error) {
	first, length := bytesOf(message)
	var text C.dia_text
	var all C.uint32_t
	var verdict C.dia_verdict
	d.lock.Lock()
	defer d.lock.Unlock()
	if d.handle == nil {
		return "", false, ErrClosed
	}
	switch status := C.dia_show(d.handle, first, length, &text, &all, &verdict); status {
	case C.DIA_OK:
		defer C.dia_text_close(&text)
		return textOf(&text), all == 1, nil
	case C.DIA_REFUSED:
		return "", false, ErrMessage
	default:
		return "", false, problemOf(status)
	}
}

// Explain is what `diacmd check` writes on standard error for a message, with the dictionary of this text: for people. It is "" for a
// valid message.
func Explain(text, message []byte, unknown Unknown) (string, error) {
	first, count := bytesOf(text)
	start, length := bytesOf(message)
	var note C.dia_text
	status := C.dia_explain(first, count, C.uint32_t(unknown), C.DIA_ANY_LEVELS, start, length, &note)
	runtime.KeepAlive(text)
	runtime.KeepAlive(message)
	if status != C.DIA_OK {
		return "", problemOf(status)
	}
	defer C.dia_text_close(&note)
	return textOf(&note), nil
}
