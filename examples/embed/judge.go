// Carries a command out on the document on standard input, by the library: what the program prints, with its status.
//
//	CGO_CFLAGS=-I$PWD/include CGO_LDFLAGS=$PWD/libargo_judge.a go run examples/embed/judge.go < document.json
package main

// #include <argo_judge.h>
import "C"

import (
	"errors"
	"fmt"
	"io"
	"os"
	"strconv"
	"unsafe"
)

// Status is how a command ended.
type Status int

const (
	Good Status = C.ARGO_JUDGE_GOOD
	// Bad says that a run is Failed, Error or Inconclusive.
	Bad Status = C.ARGO_JUDGE_BAD
)

// ErrOutOfMemory says that the library was refused memory.
var ErrOutOfMemory = errors.New("out of memory")

// Refused is the line of a refused command or document.
type Refused string

func (line Refused) Error() string { return string(line) }

// first is where a slice's bytes are, and for one without any a byte that nothing reads or writes: the library takes no
// null pointer.
func first(bytes []byte) *C.uint8_t {
	if len(bytes) == 0 {
		bytes = make([]byte, 1)
	}
	return (*C.uint8_t)(unsafe.Pointer(&bytes[0]))
}

// Judge carries a command out on a document, and returns the text that the program prints.
func Judge(command uint32, document []byte) (string, Status, error) {
	output := make([]byte, 4096)
	for {
		var written C.size_t
		status := C.argo_judge_run(C.uint32_t(command), first(document), C.size_t(len(document)),
			first(output), C.size_t(len(output)), &written)
		switch status {
		case C.ARGO_JUDGE_TOO_SMALL:
			output = make([]byte, int(written))
		case C.ARGO_JUDGE_OUT_OF_MEMORY:
			return "", 0, ErrOutOfMemory
		case C.ARGO_JUDGE_REFUSED:
			return "", 0, Refused(output[:written])
		default:
			return string(output[:written]), Status(status), nil
		}
	}
}

func main() {
	command := uint64(C.ARGO_JUDGE_RUN)
	if len(os.Args) > 1 {
		command, _ = strconv.ParseUint(os.Args[1], 10, 32)
	}
	document, err := io.ReadAll(os.Stdin)
	if err != nil {
		fmt.Fprintln(os.Stderr, "judge:", err)
		os.Exit(4)
	}
	text, status, err := Judge(uint32(command), document)
	var refused Refused
	switch {
	case errors.As(err, &refused):
		fmt.Fprintln(os.Stderr, "argo_judge:", err)
		os.Exit(C.ARGO_JUDGE_REFUSED)
	case err != nil:
		fmt.Fprintln(os.Stderr, "argo_judge:", err)
		os.Exit(C.ARGO_JUDGE_OUT_OF_MEMORY)
	}
	fmt.Print(text)
	os.Exit(int(status))
}
