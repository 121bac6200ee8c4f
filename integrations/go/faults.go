package dia

/*
#include <dia.h>
*/
import "C"

import (
	"fmt"
	"strings"
	"unsafe"
)

// A Kind is the kind of a fault of a text (docs/FAULTS.md).
type Kind uint32

// The kinds. Limit is that of a name or of the whole text, and TooManyParts that of a dictionary.
const (
	NotText          Kind = C.DIA_NOT_TEXT
	Syntax           Kind = C.DIA_SYNTAX
	Number           Kind = C.DIA_NUMBER
	Limit            Kind = C.DIA_LIMIT
	TooManyParts     Kind = C.DIA_TOO_MANY_PARTS
	DuplicateName    Kind = C.DIA_DUPLICATE_NAME
	NoGroupFormat    Kind = C.DIA_NO_GROUP_FORMAT
	HeaderMismatch   Kind = C.DIA_HEADER_MISMATCH
	DuplicateKey     Kind = C.DIA_DUPLICATE_KEY
	DuplicateCommand Kind = C.DIA_DUPLICATE_COMMAND
	UndefinedName    Kind = C.DIA_UNDEFINED_NAME
	RepeatedSlot     Kind = C.DIA_REPEATED_SLOT
	MinOverMax       Kind = C.DIA_MIN_OVER_MAX
	RequiredMin      Kind = C.DIA_REQUIRED_MIN
	OptionalMin      Kind = C.DIA_OPTIONAL_MIN
	NoCommands       Kind = C.DIA_NO_COMMANDS // of Breaking: the first dictionary has no command
	NoCommand        Kind = C.DIA_NO_COMMAND  // of Breaking: none of it has a name that is asked for
)

// String is the word of the kind, as answers in JSON have it (docs/JSON.md).
func (k Kind) String() string {
	var out [C.DIA_MAX_WORD]byte
	var count C.size_t
	if C.dia_kind_word(C.uint32_t(k), (*C.uint8_t)(unsafe.Pointer(&out[0])), C.DIA_MAX_WORD, &count) != C.DIA_OK {
		return fmt.Sprintf("kind %d", uint32(k))
	}
	return string(out[:count])
}

// A TextFault is a fault of the text of a dictionary.
type TextFault struct {
	Kind         Kind
	Line, Column uint64 // from 1; 0 where the text has the fault as a whole
	Name, Slot   string // the definition or the AVP that has the fault, and the AVP of its rule, or ""
}

// String is the position of the fault, the word of its kind, and its names.
func (f TextFault) String() string {
	words := strings.TrimRight(fmt.Sprintf("%s %s %s", f.Kind, f.Name, f.Slot), " ")
	if f.Line == 0 {
		return words
	}
	return fmt.Sprintf("%d:%d: %s", f.Line, f.Column, words)
}

// A DictionaryError says that a text is no dictionary. It has all faults of the text, one at least, in the order of docs/FAULTS.md.
type DictionaryError struct {
	Faults []TextFault
}

func (e *DictionaryError) Error() string {
	more := ""
	if len(e.Faults) > 1 {
		more = fmt.Sprintf("; and %d more", len(e.Faults)-1)
	}
	return fmt.Sprintf("dia: no dictionary: %s%s", e.Faults[0], more)
}

// An InputError says that a table, a list of accepted lines or the name of a command is refused. Line and Column count from 1. Line is 0
// where the whole input has the fault; of names of commands it is the number of the name. Column is 0 but in a table.
type InputError struct {
	Kind         Kind
	Line, Column uint64
}

func (e *InputError) Error() string {
	switch {
	case e.Line == 0:
		return fmt.Sprintf("dia: %s", e.Kind)
	case e.Column != 0:
		return fmt.Sprintf("dia: %d:%d: %s", e.Line, e.Column, e.Kind)
	}
	return fmt.Sprintf("dia: line %d: %s", e.Line, e.Kind)
}

func inputError(problem *C.dia_problem) error {
	return &InputError{Kind: Kind(problem.kind), Line: uint64(problem.line)}
}

// tableError is the error of a table of pairs, with its column.
func tableError(problem *C.dia_problem, table *C.uint8_t, length C.size_t) error {
	var line, column C.size_t
	if problem.line != 0 {
		C.dia_line_column(table, length, C.dia_table_place(table, length, problem.kind, problem.line), &line, &column)
	}
	return &InputError{Kind(problem.kind), uint64(problem.line), uint64(column)}
}

// Faults are all faults of the text of a dictionary, in the order of docs/FAULTS.md; none where it is a dictionary. Each line is
// counted from the start of the text.
func Faults(text []byte) ([]TextFault, error) {
	var faults C.dia_faults
	var raw C.dia_fault
	var count C.size_t
	first, length := bytesOf(text)
	if status := C.dia_faults_open(first, length, &faults, &count); status != C.DIA_OK {
		return nil, problemOf(status)
	}
	defer C.dia_faults_close(&faults)
	found := make([]TextFault, count)
	for i := range found {
		if status := C.dia_faults_get(&faults, C.size_t(i), &raw); status != C.DIA_OK {
			return nil, problemOf(status)
		}
		found[i] = faultOf(&raw, first, length)
	}
	return found, nil
}

func faultOf(raw *C.dia_fault, text *C.uint8_t, length C.size_t) TextFault {
	var line, column C.size_t
	if raw.has_place == 1 {
		C.dia_line_column(text, length, raw.at, &line, &column)
	}
	name := C.GoBytes(unsafe.Pointer(&raw.name[0]), C.int(raw.name_count))
	slot := C.GoBytes(unsafe.Pointer(&raw.slot[0]), C.int(raw.slot_count))
	return TextFault{Kind(raw.kind), uint64(line), uint64(column), string(name), string(slot)}
}

// errorOf is why a text is refused as a dictionary.
func errorOf(text []byte) error {
	faults, err := Faults(text)
	if err != nil {
		return err
	}
	return &DictionaryError{faults}
}

// Render is the text in canonical form, as `diacmd render` writes it. Its definitions needn't fit together. If the grammar doesn't
// derive it, the error is a *DictionaryError.
func Render(text []byte) (string, error) {
	first, count := bytesOf(text)
	var rendered C.dia_text
	var problem C.dia_problem
	switch status := C.dia_render(first, count, &rendered, &problem); status {
	case C.DIA_OK:
		defer C.dia_text_close(&rendered)
		return textOf(&rendered), nil
	case C.DIA_REFUSED:
		return "", errorOf(text)
	default:
		return "", problemOf(status)
	}
}
