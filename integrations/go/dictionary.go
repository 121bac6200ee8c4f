// Package dia has dictionaries of Diameter (RFC 6733), checks of messages, and what breaks between two dictionaries, by libdia.
//
// Texts of dictionaries have the notation of docs/FORMATS.md. A Dictionary may be used by several goroutines, one after the other;
// Share makes one that they use side by side.
package dia

/*
#cgo CFLAGS: -I${SRCDIR}
#cgo linux,amd64 LDFLAGS: ${SRCDIR}/libdia_linux_amd64.a
#cgo linux,arm64 LDFLAGS: ${SRCDIR}/libdia_linux_arm64.a
#include <dia.h>
#include <stdlib.h>
*/
import "C"

import (
	"errors"
	"fmt"
	"runtime"
	"sync"
	"unsafe"
)

// ErrMemory says that memory was refused. Nothing has changed, and the call may be tried again.
var ErrMemory = errors.New("dia: no memory")

// ErrClosed says that the dictionary, stream or peer is closed.
var ErrClosed = errors.New("dia: it is closed")

// A Dictionary holds the definitions of AVPs and commands.
type Dictionary struct {
	lock   sync.Mutex
	handle *C.dia_dict // in memory of C, since a handle is used by pointer; nil once it is closed
	levels C.uint32_t  // how many groups may be nested
}

func bytesOf(b []byte) (*C.uint8_t, C.size_t) {
	if len(b) == 0 {
		return (*C.uint8_t)(unsafe.Pointer(new(byte))), 0
	}
	return (*C.uint8_t)(unsafe.Pointer(&b[0])), C.size_t(len(b))
}

// open makes a dictionary of a closed handle that fill opens.
func open(fill func(handle *C.dia_dict) C.dia_status) (*Dictionary, C.dia_status) {
	handle := (*C.dia_dict)(C.calloc(1, C.sizeof_dia_dict))
	if handle == nil {
		return nil, C.DIA_NO_MEMORY
	}
	status := fill(handle)
	if status != C.DIA_OK {
		C.free(unsafe.Pointer(handle))
		return nil, status
	}
	made := &Dictionary{handle: handle, levels: C.DIA_ANY_LEVELS}
	runtime.SetFinalizer(made, (*Dictionary).Close)
	return made, status
}

// problemOf is what a status says that isn't DIA_OK.
func problemOf(status C.dia_status) error {
	switch status {
	case C.DIA_NO_MEMORY:
		return ErrMemory
	case C.DIA_IS_CLOSED:
		return ErrClosed
	case C.DIA_BAD_ARGUMENT:
		return ErrArgument
	}
	return fmt.Errorf("dia: status %d", status)
}

// New reads the text of a dictionary. If it is none, the error is a *DictionaryError with all faults of the text.
func New(text []byte) (*Dictionary, error) {
	if C.dia_abi_version() != C.DIA_ABI_VERSION {
		return nil, errors.New("dia: libdia has another version than dia.h")
	}
	first, count := bytesOf(text)
	var problem C.dia_problem
	made, status := open(func(handle *C.dia_dict) C.dia_status { return C.dia_dict_open(first, count, handle, &problem) })
	runtime.KeepAlive(text)
	switch status {
	case C.DIA_OK:
		return made, nil
	case C.DIA_REFUSED:
		return nil, errorOf(text)
	}
	return nil, problemOf(status)
}

// Base is the dictionary of RFC 6733.
func Base() (*Dictionary, error) {
	made, status := open(func(handle *C.dia_dict) C.dia_status { return C.dia_dict_open_base(handle) })
	if status != C.DIA_OK {
		return nil, problemOf(status)
	}
	return made, nil
}

// Share makes another Dictionary of the same definitions, which is used beside this one. It takes little time and memory.
func (d *Dictionary) Share() (*Dictionary, error) {
	d.lock.Lock()
	defer d.lock.Unlock()
	if d.handle == nil {
		return nil, ErrClosed
	}
	made, status := open(func(handle *C.dia_dict) C.dia_status { return C.dia_dict_share(d.handle, handle) })
	if status != C.DIA_OK {
		return nil, problemOf(status)
	}
	made.levels = d.levels
	return made, nil
}

// WithLevels is as Share. For its checks, streams and answers so many groups may be nested, and a deeper one has a fault; else any number
// may be.
func (d *Dictionary) WithLevels(levels uint32) (*Dictionary, error) {
	made, err := d.Share()
	if err != nil {
		return nil, err
	}
	made.levels = C.uint32_t(levels)
	return made, nil
}

// Close frees the dictionary. Else the garbage collector does.
func (d *Dictionary) Close() {
	d.lock.Lock()
	defer d.lock.Unlock()
	if d.handle != nil {
		C.dia_dict_close(d.handle)
		C.free(unsafe.Pointer(d.handle))
		d.handle = nil
		runtime.SetFinalizer(d, nil)
	}
}

// AVPName is the name of an AVP, or "" where the dictionary has none with this code and Vendor-ID, which is 0 for none.
func (d *Dictionary) AVPName(code, vendor uint32) string {
	return d.name(func(out *C.uint8_t, count *C.size_t) C.dia_status {
		return C.dia_avp_name(d.handle, C.uint32_t(code), C.uint32_t(vendor), out, C.DIA_MAX_NAME, count)
	})
}

// CommandName is the name of the command of a verdict of this dictionary, or "".
func (d *Dictionary) CommandName(command uint32) string {
	return d.name(func(out *C.uint8_t, count *C.size_t) C.dia_status {
		return C.dia_command_name(d.handle, C.uint32_t(command), out, C.DIA_MAX_NAME, count)
	})
}

func (d *Dictionary) name(ask func(out *C.uint8_t, count *C.size_t) C.dia_status) string {
	var out [C.DIA_MAX_NAME]byte
	var count C.size_t
	d.lock.Lock()
	defer d.lock.Unlock()
	if d.handle == nil || ask((*C.uint8_t)(unsafe.Pointer(&out[0])), &count) != C.DIA_OK {
		return ""
	}
	return string(out[:count])
}
