// Says of two MP4 files whether they have the same content, and where not the first difference. The
// status is that of `mp4norm compare`: 0, or 5 where they differ.
//
// With the packages of the library: go build examples/go/compare.go && ./compare want.mp4 made.mp4
package main

/*
#cgo LDFLAGS: -lmp4norm
#include <mp4norm.h>
*/
import "C"

import (
	"fmt"
	"os"
)

// Refused is the fault of a file, or why it is not known.
type Refused struct {
	Status, Kind, File uint32
	Box                string
	Offset             uint64
}

func (it Refused) Error() string {
	return fmt.Sprintf("status %d, kind %d in %s at %d of file %d", it.Status, it.Kind, it.Box, it.Offset, it.File+1)
}

// first is the place of the first byte: never nil, as the library asks.
func first(bytes []byte) *C.uint8_t {
	if len(bytes) == 0 {
		return new(C.uint8_t)
	}
	return (*C.uint8_t)(&bytes[0])
}

// Compare gives the line of the first difference of two files, but for what these words leave out; it is
// empty where there is none.
func Compare(one, other []byte, words uint32) (string, error) {
	var answer C.struct_mp4norm_answer
	line := make([]byte, 4096)
	C.mp4norm_compare(first(one), C.size_t(len(one)), first(other), C.size_t(len(other)),
		C.uint32_t(words), first(line), C.size_t(len(line)), &answer)
	if answer.status == C.MP4NORM_DONE || answer.status == C.MP4NORM_DIFFER {
		return string(line[:answer.len]), nil
	}
	box := uint32(answer.box_type)
	return "", Refused{uint32(answer.status), uint32(answer.kind), uint32(answer.file),
		string([]byte{byte(box >> 24), byte(box >> 16), byte(box >> 8), byte(box)}), uint64(answer.offset)}
}

func main() {
	var files [2][]byte
	for at := range files {
		bytes, err := os.ReadFile(os.Args[at+1])
		if err != nil {
			fmt.Fprintln(os.Stderr, err)
			os.Exit(3)
		}
		files[at] = bytes
	}
	line, err := Compare(files[0], files[1], 0)
	if err != nil {
		fmt.Fprintln(os.Stderr, err)
		os.Exit(1)
	}
	fmt.Print(line)
	if line != "" {
		os.Exit(5)
	}
}
