// check DICTIONARY MESSAGE: checks one message, given as hexadecimal digits, by a dictionary's text, and writes what is said of it.
//
//	CGO_CFLAGS="$(pkg-config --cflags dia)" CGO_LDFLAGS="$(pkg-config --libs dia)" go run check.go DICTIONARY MESSAGE
package main

// #include <dia.h>
import "C"

import (
	"encoding/hex"
	"fmt"
	"os"
	"strings"
	"unsafe"
)

// A pointer to the first byte. The library wants one where there are none, too.
func first(bytes []byte) *C.uint8_t {
	if len(bytes) == 0 {
		bytes = []byte{0}
	}
	return (*C.uint8_t)(unsafe.Pointer(&bytes[0]))
}

func check(text, message []byte) (string, error) {
	var dict C.dia_dict
	var problem C.dia_problem
	if status := C.dia_dict_open(first(text), C.size_t(len(text)), &dict, &problem); status != C.DIA_OK {
		return "", fmt.Errorf("no dictionary: status %d, kind %d at line %d", status, problem.kind, problem.line)
	}
	defer C.dia_dict_close(&dict)
	var verdict C.dia_verdict
	status := C.dia_check(&dict, C.DIA_KEPT, C.DIA_ANY_LEVELS, first(message), C.size_t(len(message)), &verdict)
	if status != C.DIA_OK {
		return "", fmt.Errorf("status %d", status)
	}
	switch verdict.outcome {
	case C.DIA_VALID:
		name := make([]byte, C.DIA_MAX_NAME)
		var count C.size_t
		C.dia_command_name(&dict, verdict.command, first(name), C.size_t(len(name)), &count)
		return "valid " + string(name[:count]), nil
	case C.DIA_FAULT:
		return fmt.Sprintf("fault %d at %d", verdict.code, verdict.place), nil
	case C.DIA_TRUNCATED:
		return "truncated", nil
	}
	return "trailing", nil
}

func main() {
	if len(os.Args) != 3 || C.dia_abi_version() != C.DIA_ABI_VERSION {
		os.Exit(2)
	}
	text, err := os.ReadFile(os.Args[1])
	digits, missing := os.ReadFile(os.Args[2])
	message, odd := hex.DecodeString(strings.Join(strings.Fields(string(digits)), ""))
	said := ""
	if err == nil && missing == nil && odd == nil {
		said, err = check(text, message)
	}
	if err != nil || missing != nil || odd != nil {
		fmt.Fprintln(os.Stderr, err, missing, odd)
		os.Exit(2)
	}
	fmt.Println(said)
}
