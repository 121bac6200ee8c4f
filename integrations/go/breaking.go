package dia

/*
#include <dia.h>
*/
import "C"

import (
	"strings"
	"unsafe"
)

// Sends is which messages the first side sends.
type Sends uint32

// SendsAny sends also AVPs that its dictionary doesn't know, SendsKnown those that it knows, SendsListed those that a rule lists, and
// SendsFilled these, and those that it knows where a wildcard is all that a level allows.
const (
	SendsAny    Sends = C.DIA_SENDS_ANY
	SendsKnown  Sends = C.DIA_SENDS_KNOWN
	SendsListed Sends = C.DIA_SENDS_LISTED
	SendsFilled Sends = C.DIA_SENDS_FILLED
)

// Options are added up.
type Options uint32

// WithMessages writes a message after each line that shows it, Once a line for each cause, and Meaning also what is read as another
// format.
const (
	WithMessages Options = C.DIA_WITH_MESSAGES
	Once         Options = C.DIA_ONCE
	Meaning      Options = C.DIA_MEANING
)

// A Question is what Breaking is asked.
type Question struct {
	Sends    Sends
	Unknown  Unknown // of the side that reads
	Options  Options
	Commands []string // the names of those that are asked for; all where there are none
	Accepted string   // the text of a list of accepted lines (docs/FORMATS.md)
}

// both shares two dictionaries, so that a long call leaves them to others. One dictionary takes two handles.
func both(a, b *Dictionary) (first, second *Dictionary, err error) {
	if first, err = a.Share(); err != nil {
		return nil, nil, err
	}
	if second, err = b.Share(); err != nil {
		first.Close()
		return nil, nil, err
	}
	return first, second, nil
}

// Breaking lists all that can break where the side of a sends and the side of b reads: the text of `diacmd breaking`, and whether
// nothing breaks but what is accepted. Other goroutines may use both dictionaries meanwhile. If an input is refused, the error is an
// *InputError.
func Breaking(a, b *Dictionary, q Question) (text string, safe bool, err error) {
	first, second, err := both(a, b)
	if err != nil {
		return "", false, err
	}
	defer first.Close()
	defer second.Close()
	commands, commandsCount := bytesOf([]byte(strings.Join(q.Commands, "\n")))
	accepted, acceptedCount := bytesOf([]byte(q.Accepted))
	var answer C.dia_text
	var isSafe C.uint32_t
	var problem C.dia_problem
	status := C.dia_breaking(first.handle, second.handle, C.uint32_t(q.Sends), C.uint32_t(q.Unknown), C.uint32_t(q.Options), commands,
		commandsCount, accepted, acceptedCount, &answer, &isSafe, &problem)
	if status == C.DIA_REFUSED {
		return "", false, inputError(&problem)
	}
	if status != C.DIA_OK {
		return "", false, problemOf(status)
	}
	defer C.dia_text_close(&answer)
	return textOf(&answer), isSafe == 1, nil
}

// Compare compares two dictionaries by the text of a table of pairs (docs/FORMATS.md): whether each message that is valid under a, of a
// command that the table lists, is valid under b; and the line of `diacmd compare`. If the table is refused, the error is an
// *InputError.
func Compare(a, b *Dictionary, unknown Unknown, table string) (holds bool, line string, err error) {
	first, second, err := both(a, b)
	if err != nil {
		return false, "", err
	}
	defer first.Close()
	defer second.Close()
	start, count := bytesOf([]byte(table))
	var answer C.dia_text
	var isYes C.uint32_t
	var problem C.dia_problem
	switch status := C.dia_compare(first.handle, second.handle, C.uint32_t(unknown), start, count, &answer, &isYes, &problem); status {
	case C.DIA_OK:
		defer C.dia_text_close(&answer)
		return isYes == 1, strings.TrimSuffix(textOf(&answer), "\n"), nil
	case C.DIA_REFUSED:
		return false, "", tableError(&problem, start, count)
	default:
		return false, "", problemOf(status)
	}
}

func textOf(text *C.dia_text) string {
	var count C.size_t
	if C.dia_text_length(text, &count) != C.DIA_OK || count == 0 {
		return ""
	}
	found := make([]byte, count)
	C.dia_text_read(text, 0, (*C.uint8_t)(unsafe.Pointer(&found[0])), count, &count)
	return string(found[:count])
}
