package dia

/*
#include <dia.h>
#include <stdlib.h>
*/
import "C"

import (
	"errors"
	"runtime"
	"sync"
	"unsafe"
)

// ErrSpent says that memory was refused to a stream before. Again begins the next message.
var ErrSpent = errors.New("dia: memory was refused to this stream before")

// A Stream checks a message that comes in pieces, and after Again the next one. It keeps its dictionary, which may be closed meanwhile.
type Stream struct {
	lock   sync.Mutex
	handle *C.dia_stream
}

// Stream begins a message of which no byte came yet.
func (d *Dictionary) Stream(unknown Unknown) (*Stream, error) {
	d.lock.Lock()
	defer d.lock.Unlock()
	if d.handle == nil {
		return nil, ErrClosed
	}
	handle := (*C.dia_stream)(C.calloc(1, C.sizeof_dia_stream))
	if handle == nil {
		return nil, ErrMemory
	}
	if status := C.dia_stream_open(d.handle, C.uint32_t(unknown), d.levels, handle); status != C.DIA_OK {
		C.free(unsafe.Pointer(handle))
		return nil, problemOf(status)
	}
	made := &Stream{handle: handle}
	runtime.SetFinalizer(made, (*Stream).Close)
	return made, nil
}

// Feed takes the bytes of a piece that belong to the message. It returns those after them, and whether the message takes no more. Once the
// error was ErrMemory, it is ErrSpent.
func (s *Stream) Feed(piece []byte) (rest []byte, done bool, err error) {
	first, count := bytesOf(piece)
	var fed C.dia_fed
	s.lock.Lock()
	defer s.lock.Unlock()
	if s.handle == nil {
		return nil, false, ErrClosed
	}
	if status := C.dia_stream_feed(s.handle, first, count, &fed); status != C.DIA_OK {
		return nil, false, streamProblem(status)
	}
	return piece[fed.taken:], fed.done == 1, nil
}

// Again is the verdict on all bytes that were taken: Truncated before the end of the message. The next message begins, also after
// ErrSpent.
func (s *Stream) Again() (Verdict, error) {
	var verdict C.dia_verdict
	s.lock.Lock()
	defer s.lock.Unlock()
	if s.handle == nil {
		return Verdict{}, ErrClosed
	}
	if status := C.dia_stream_again(s.handle, &verdict); status != C.DIA_OK {
		return Verdict{}, streamProblem(status)
	}
	return verdictOf(&verdict), nil
}

// Finish is the verdict of Again, and closes the stream.
func (s *Stream) Finish() (Verdict, error) {
	defer s.Close()
	return s.Again()
}

// Close frees the stream. Else the garbage collector does.
func (s *Stream) Close() {
	s.lock.Lock()
	defer s.lock.Unlock()
	if s.handle != nil {
		C.dia_stream_close(s.handle)
		C.free(unsafe.Pointer(s.handle))
		s.handle = nil
		runtime.SetFinalizer(s, nil)
	}
}

func streamProblem(status C.dia_status) error {
	if status == C.DIA_SPENT {
		return ErrSpent
	}
	return problemOf(status)
}

// A Header has the fields of a message's header (RFC 6733 section 3).
type Header struct {
	Length             uint32 // Message Length
	Flags              uint32 // Command Flags, 8 bits
	Code               uint32 // Command Code
	Application        uint32 // Application-ID
	HopByHop, EndToEnd uint32
}

// IsRequest is whether the R flag is set.
func (h Header) IsRequest() bool { return h.Flags&0x80 != 0 }

// IsProxiable is whether the P flag is set.
func (h Header) IsProxiable() bool { return h.Flags&0x40 != 0 }

// IsError is whether the E flag is set.
func (h Header) IsError() bool { return h.Flags&0x20 != 0 }

// ReadHeader is the header with which the bytes begin, at least 20. The error is ErrMessage where no message begins so.
func ReadHeader(data []byte) (Header, error) {
	first, count := bytesOf(data)
	var raw C.dia_head
	var verdict C.dia_verdict
	if C.dia_header(first, count, &raw, &verdict) != C.DIA_OK {
		return Header{}, ErrMessage
	}
	return Header{uint32(raw.length), uint32(raw.flags), uint32(raw.code), uint32(raw.app), uint32(raw.hop), uint32(raw.e2e)}, nil
}

// MessageLength is how many bytes the message has that begins with these, at least 20 (RFC 6733 section 3). The error is ErrMessage where
// no message begins so.
func MessageLength(header []byte) (uint, error) {
	first, count := bytesOf(header)
	var length C.uint32_t
	var verdict C.dia_verdict
	if C.dia_message_length(first, count, &length, &verdict) != C.DIA_OK {
		return 0, ErrMessage
	}
	return uint(length), nil
}

// Split are the messages that follow one another in the bytes, by their Message Length. Bytes that begin none are the last, as is a message
// that is cut.
func Split(data []byte) [][]byte {
	var found [][]byte
	for len(data) > 0 {
		length, err := MessageLength(data)
		if err != nil || length > uint(len(data)) {
			length = uint(len(data))
		}
		found = append(found, data[:length:length])
		data = data[length:]
	}
	return found
}
