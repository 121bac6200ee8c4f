package dia

/*
#include <dia.h>
#include <stdlib.h>
*/
import "C"

import (
	"crypto/rand"
	"encoding/binary"
	"errors"
	"fmt"
	"net"
	"runtime"
	"sync"
	"time"
	"unsafe"
)

// Relay is the Application-ID of relays (RFC 6733 section 2.4).
const Relay uint32 = 0xffffffff

// A Role is the end of a transport connection.
type Role uint32

// The Initiator opened the transport connection, and the Responder accepted it.
const (
	Initiator Role = C.DIA_INITIATOR
	Responder Role = C.DIA_RESPONDER
)

// A State is the state of a connection (docs/CONNECTION.md).
type State uint32

// The states. Closed is for good.
const (
	Idle    State = C.DIA_STATE_IDLE
	WaitCEA State = C.DIA_STATE_WAIT_CEA
	WaitCER State = C.DIA_STATE_WAIT_CER
	Open    State = C.DIA_STATE_OPEN
	WaitDPA State = C.DIA_STATE_WAIT_DPA
	Closed  State = C.DIA_STATE_CLOSED
)

var states = [...]string{"IDLE", "WAIT_CEA", "WAIT_CER", "OPEN", "WAIT_DPA", "CLOSED"}

// String is the name of the state, as dia.h has it.
func (s State) String() string { return nameOf(states[:], uint32(s)) }

// A Cause is a value of Disconnect-Cause (RFC 6733 section 5.4.3).
type Cause uint32

// The causes.
const (
	Rebooting Cause = C.DIA_CAUSE_REBOOTING
	Busy      Cause = C.DIA_CAUSE_BUSY
	DoNotWant Cause = C.DIA_CAUSE_DO_NOT_WANT
)

// Why is why an end closes the connection.
type Why uint32

// The reasons.
const (
	WhyInvalid     Why = C.DIA_WHY_INVALID
	WhyNoCommon    Why = C.DIA_WHY_NO_COMMON
	WhyRefused     Why = C.DIA_WHY_REFUSED
	WhyWatchdog    Why = C.DIA_WHY_WATCHDOG
	WhyTimeout     Why = C.DIA_WHY_TIMEOUT
	WhyPeerStopped Why = C.DIA_WHY_PEER_STOPPED
	WhyStopped     Why = C.DIA_WHY_STOPPED
)

var whys = [...]string{"INVALID", "NO_COMMON", "REFUSED", "WATCHDOG", "TIMEOUT", "PEER_STOPPED", "STOPPED"}

// String is the name of the reason, as dia.h has it.
func (w Why) String() string { return nameOf(whys[:], uint32(w)) }

// nameOf is the name of a number, which a later library may have more of.
func nameOf(names []string, number uint32) string {
	if number < uint32(len(names)) {
		return names[number]
	}
	return fmt.Sprintf("ANOTHER_%d", number)
}

// A Timer is what the timer of a connection does after an event.
type Timer uint32

// TimerOff: no Tick is due. TimerQuiet: it restarts, with the time of a watchdog (QuietTime). TimerReply: it restarts, with the time in
// which the other end has to answer, 10 to 30 seconds. TimerKeep: it runs on.
const (
	TimerOff   Timer = C.DIA_TIMER_OFF
	TimerQuiet Timer = C.DIA_TIMER_QUIET
	TimerReply Timer = C.DIA_TIMER_REPLY
	TimerKeep  Timer = C.DIA_TIMER_KEEP
)

// An Application is one that an end advertises: in an Auth-Application-Id or an Acct-Application-Id, of its own or, with HasVendor, with
// the vendor's number in a Vendor-Specific-Application-Id.
type Application struct {
	ID         uint32
	Accounting bool
	HasVendor  bool
	Vendor     uint32
}

// A Config is what an end says of itself, and its modes.
type Config struct {
	Host, Realm, Product string
	Addresses            []net.IP // 127.0.0.1 where there are none
	Vendor               uint32
	Applications         []Application
	StateID              *uint32 // Origin-State-Id is not sent where it is nil
	// Identifiers are the Hop-by-Hop and End-to-End Identifiers of the first request; they begin at random where it is nil.
	Identifiers *[2]uint32
	Relays      bool // Relay means all applications
	Answers     bool // a request that is no valid message is answered with its fault before the close
	Life        bool // a watchdog without answer makes the connection suspect before it closes it (RFC 3539 section 3.4.1)
	Values      bool // what the other end says of itself is kept, for Host, Realm, Product, Result and Cause
}

// A ConfigError names the field of a Config that is refused.
type ConfigError struct {
	Field string
}

func (e *ConfigError) Error() string {
	return fmt.Sprintf("dia: %s is refused", e.Field)
}

// An Output is what an end asks for: to send a message, or, where Message is nil, to close the transport connection, after what was to be
// sent.
type Output struct {
	Message []byte
	Why     Why
}

// A Peer is an end of a connection (RFC 6733 section 5; docs/CONNECTION.md), without a socket and a clock. Each event returns what is to
// be done, in order. After a reconnection make another.
type Peer struct {
	lock   sync.Mutex
	handle *C.dia_peer
	timer  Timer
}

// NewPeer makes an end that is idle. If a field is refused, the error is a *ConfigError.
func NewPeer(role Role, config Config) (*Peer, error) {
	addresses, err := addressesOf(config.Addresses)
	if err != nil {
		return nil, err
	}
	numbers, err := numbersOf(&config)
	if err != nil {
		return nil, err
	}
	apps := make([]C.dia_app, len(config.Applications)+1)
	for i, app := range config.Applications {
		apps[i] = C.dia_app{is_acct: number(app.Accounting), id: C.uint32_t(app.ID), has_vendor: number(app.HasVendor),
			vendor: C.uint32_t(app.Vendor)}
	}
	manner := number(config.Relays)*C.DIA_MANNER_RELAYS | number(config.Answers)*C.DIA_MANNER_ANSWERS |
		number(config.Life)*C.DIA_MANNER_LIFE | number(config.Values)*C.DIA_MANNER_VALUES
	host, hostCount := bytesOf([]byte(config.Host))
	realm, realmCount := bytesOf([]byte(config.Realm))
	product, productCount := bytesOf([]byte(config.Product))
	handle := (*C.dia_peer)(C.calloc(1, C.sizeof_dia_peer))
	if handle == nil {
		return nil, ErrMemory
	}
	var fault C.uint32_t
	status := C.dia_peer_open_as(C.uint32_t(role), manner, host, hostCount, realm, realmCount, product, productCount, &addresses[0],
		C.size_t(len(addresses)), &apps[0], C.size_t(len(config.Applications)), &numbers, handle, &fault)
	if status != C.DIA_OK {
		C.free(unsafe.Pointer(handle))
		if status == C.DIA_REFUSED {
			return nil, &ConfigError{fieldOf(fault)}
		}
		return nil, problemOf(status)
	}
	made := &Peer{handle: handle}
	runtime.SetFinalizer(made, (*Peer).Close)
	return made, nil
}

func fieldOf(fault C.uint32_t) string {
	switch fault {
	case C.DIA_BAD_HOST:
		return "Host"
	case C.DIA_BAD_REALM:
		return "Realm"
	case C.DIA_BAD_PRODUCT:
		return "Product"
	case C.DIA_BAD_ADDRESS:
		return "Addresses"
	}
	return "Applications"
}

func number(is bool) C.uint32_t {
	if is {
		return 1
	}
	return 0
}

func addressesOf(addresses []net.IP) ([]C.dia_ip, error) {
	if len(addresses) == 0 {
		addresses = []net.IP{net.IPv4(127, 0, 0, 1)}
	}
	found := make([]C.dia_ip, len(addresses))
	for i, address := range addresses {
		bytes := address.To4()
		if bytes == nil {
			bytes = address.To16()
			found[i].is_v6 = 1
		}
		if bytes == nil {
			return nil, &ConfigError{"Addresses"}
		}
		for at, value := range bytes {
			found[i].bytes[at] = C.uint8_t(value)
		}
	}
	return found, nil
}

// numbersOf has the identifiers at random, if none are given; the End-to-End Identifier begins with the time (RFC 6733 section 3).
func numbersOf(config *Config) (C.dia_numbers, error) {
	found := C.dia_numbers{vendor: C.uint32_t(config.Vendor)}
	if config.StateID != nil {
		found.has_state_id, found.state_id = 1, C.uint32_t(*config.StateID)
	}
	if config.Identifiers != nil {
		found.hop, found.e2e = C.uint32_t(config.Identifiers[0]), C.uint32_t(config.Identifiers[1])
		return found, nil
	}
	var drawn [8]byte
	if _, err := rand.Read(drawn[:]); err != nil {
		return found, err
	}
	found.hop = C.uint32_t(binary.BigEndian.Uint32(drawn[:4]))
	found.e2e = C.uint32_t(uint32(time.Now().Unix())<<20 | binary.BigEndian.Uint32(drawn[4:])&0xfffff)
	return found, nil
}

// Start says that the transport connection is there.
func (p *Peer) Start() ([]Output, error) { return p.event(C.DIA_START, nil, 0) }

// Receive says that one whole message came; Split finds these in bytes. Messages of applications are ignored: report them by Heard.
func (p *Peer) Receive(message []byte) ([]Output, error) { return p.event(C.DIA_BYTES, message, 0) }

// Tick says that the timer of the connection expired.
func (p *Peer) Tick() ([]Output, error) { return p.event(C.DIA_TICK, nil, 0) }

// Stop says that the connection is to be given up.
func (p *Peer) Stop(cause Cause) ([]Output, error) { return p.event(C.DIA_STOP, nil, cause) }

// Lost says that the transport connection is gone.
func (p *Peer) Lost() ([]Output, error) { return p.event(C.DIA_LOST, nil, 0) }

// event delivers an event, and takes what is to be done, with what an earlier call left.
func (p *Peer) event(event C.uint32_t, message []byte, cause Cause) ([]Output, error) {
	first, count := bytesOf(message)
	p.lock.Lock()
	defer p.lock.Unlock()
	if p.handle == nil {
		return nil, ErrClosed
	}
	left, err := p.outputs()
	if err != nil {
		return left, err
	}
	var before, after, timer C.uint32_t
	C.dia_peer_state(p.handle, &before)
	if status := C.dia_peer_event(p.handle, event, first, count, C.uint32_t(cause)); status != C.DIA_OK {
		return left, problemOf(status)
	}
	C.dia_peer_state(p.handle, &after)
	if C.dia_peer_timer(before, event, after, &timer) == C.DIA_OK {
		p.timer = Timer(timer)
	}
	found, err := p.outputs()
	return append(left, found...), err
}

func (p *Peer) outputs() ([]Output, error) {
	var found []Output
	room := make([]byte, 512)
	for {
		var output, why C.uint32_t
		var count C.size_t
		first, size := bytesOf(room)
		switch status := C.dia_peer_output(p.handle, &output, first, size, &count, &why); status {
		case C.DIA_OK:
			if output == C.DIA_CLOSE {
				found = append(found, Output{Why: Why(why)})
			} else {
				found = append(found, Output{Message: append([]byte{}, room[:count]...)})
			}
		case C.DIA_NONE:
			return found, nil
		case C.DIA_NO_ROOM:
			room = make([]byte, count)
		default:
			return found, problemOf(status)
		}
	}
}

// Timer is what the timer of the connection does after the last event.
func (p *Peer) Timer() Timer {
	p.lock.Lock()
	defer p.lock.Unlock()
	return p.timer
}

// QuietTime is how long a connection may be quiet before a watchdog: tw, raised to 6 seconds if lower, plus or minus up to 2 seconds at
// random (RFC 3539 section 3.4.1).
func QuietTime(tw time.Duration) (time.Duration, error) {
	var drawn [4]byte
	if _, err := rand.Read(drawn[:]); err != nil {
		return 0, err
	}
	if tw < 0 || tw.Milliseconds() > 0xffffffff {
		return 0, ErrArgument
	}
	quiet := C.dia_peer_quiet_ms(C.uint32_t(tw.Milliseconds()), C.uint32_t(binary.BigEndian.Uint32(drawn[:])))
	return time.Duration(quiet) * time.Millisecond, nil
}

// State is the state of the connection.
func (p *Peer) State() (State, error) {
	var state C.uint32_t
	err := p.ask(func() C.dia_status { return C.dia_peer_state(p.handle, &state) })
	return State(state), err
}

// Common are the applications that both ends have, once the connection was open: those for authentication first, by number.
func (p *Peer) Common() ([]Application, error) {
	var found []Application
	for {
		var app C.dia_app
		err := p.ask(func() C.dia_status { return C.dia_peer_common(p.handle, C.size_t(len(found)), &app) })
		if errors.Is(err, errNone) {
			return found, nil
		}
		if err != nil {
			return nil, err
		}
		found = append(found, Application{ID: uint32(app.id), Accounting: app.is_acct == 1})
	}
}

// Serves is whether messages of an application are for this connection.
func (p *Peer) Serves(application uint32) (bool, error) {
	var serves C.uint32_t
	err := p.ask(func() C.dia_status { return C.dia_peer_serves(p.handle, C.uint32_t(application), &serves) })
	return serves == 1, err
}

// TakeIdentifiers takes the next Hop-by-Hop and End-to-End Identifiers, for a request of the caller's own.
func (p *Peer) TakeIdentifiers() (hopByHop, endToEnd uint32, err error) {
	var hop, e2e C.uint32_t
	err = p.ask(func() C.dia_status { return C.dia_peer_identifiers(p.handle, &hop, &e2e) })
	return uint32(hop), uint32(e2e), err
}

// Heard reports a message of an application, a sign of life.
func (p *Peer) Heard() error {
	return p.ask(func() C.dia_status { return C.dia_peer_heard(p.handle) })
}

// Suspect is whether a watchdog is unanswered: then new requests are better sent elsewhere.
func (p *Peer) Suspect() (bool, error) {
	var suspect C.uint32_t
	err := p.ask(func() C.dia_status { return C.dia_peer_suspect(p.handle, &suspect) })
	return suspect == 1, err
}

// Host is the Origin-Host of the other end, or "" where it has not said it.
func (p *Peer) Host() (string, error) { return p.text(C.DIA_VALUE_HOST) }

// Realm is its Origin-Realm, as Host.
func (p *Peer) Realm() (string, error) { return p.text(C.DIA_VALUE_REALM) }

// Product is its Product-Name, as Host.
func (p *Peer) Product() (string, error) { return p.text(C.DIA_VALUE_PRODUCT) }

// Result is the Result-Code of its answer to the CER of this end, or 0.
func (p *Peer) Result() (uint32, error) {
	value, err := p.value(C.DIA_VALUE_RESULT)
	if len(value) != 4 {
		return 0, err
	}
	return binary.BigEndian.Uint32(value), err
}

// Cause is the Disconnect-Cause of its DPR, and whether one came.
func (p *Peer) Cause() (Cause, bool, error) {
	value, err := p.value(C.DIA_VALUE_CAUSE)
	if len(value) != 4 {
		return 0, false, err
	}
	return Cause(binary.BigEndian.Uint32(value)), true, err
}

func (p *Peer) text(which C.uint32_t) (string, error) {
	value, err := p.value(which)
	return string(value), err
}

// value is nil where the other end has not said it.
func (p *Peer) value(which C.uint32_t) ([]byte, error) {
	room := make([]byte, 64)
	for {
		var count C.size_t
		first, size := bytesOf(room)
		err := p.ask(func() C.dia_status { return C.dia_peer_value(p.handle, which, first, size, &count) })
		switch {
		case errors.Is(err, errNone):
			return nil, nil
		case errors.Is(err, errRoom):
			room = make([]byte, count)
		case err != nil:
			return nil, err
		default:
			return room[:count], nil
		}
	}
}

var errNone, errRoom = errors.New("dia: none"), errors.New("dia: no room")

// ask makes a call on the handle.
func (p *Peer) ask(call func() C.dia_status) error {
	p.lock.Lock()
	defer p.lock.Unlock()
	if p.handle == nil {
		return ErrClosed
	}
	switch status := call(); status {
	case C.DIA_OK:
		return nil
	case C.DIA_NONE:
		return errNone
	case C.DIA_NO_ROOM:
		return errRoom
	default:
		return problemOf(status)
	}
}

// Close frees the end, and sends nothing. Else the garbage collector does.
func (p *Peer) Close() {
	p.lock.Lock()
	defer p.lock.Unlock()
	if p.handle != nil {
		C.dia_peer_close(p.handle)
		C.free(unsafe.Pointer(p.handle))
		p.handle = nil
		runtime.SetFinalizer(p, nil)
	}
}
