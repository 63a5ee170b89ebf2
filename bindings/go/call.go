package inroot

// #include <inroot.h>
// #include <stdlib.h>
import "C"

import (
	"io/fs"
	"os"
	"strings"
	"syscall"
	"unsafe"
)

// invalid is EINVAL that errors.Is also takes for fs.ErrInvalid, as it does not with the number alone.
type invalid struct{ syscall.Errno }

func (e invalid) Is(target error) bool {
	return target == fs.ErrInvalid || e.Errno.Is(target)
}

func (e invalid) Unwrap() error {
	return e.Errno
}

// result gives what a call of the library gave, or its error, of which it gave the number negated.
func result[N ~int32 | ~int64](given N) (int, error) {
	switch {
	case given >= 0:
		return int(given), nil
	case syscall.Errno(-given) == syscall.EINVAL:
		return 0, invalid{syscall.EINVAL}
	}
	return 0, syscall.Errno(-given)
}

// number gives a number as the library takes it. Of one that has more than 32 bits that is -1, which each call
// refuses.
func number(value int) C.int {
	if int(C.int(value)) != value {
		return -1
	}
	return C.int(value)
}

// held makes a call by the descriptor of a file, which nobody closes before the call ends.
func held(file *os.File, call func(fd C.int) (int, error)) (int, error) {
	connection, err := file.SyscallConn()
	if err != nil {
		return 0, err
	}
	given := 0
	if closed := connection.Control(func(fd uintptr) { given, err = call(C.int(fd)) }); closed != nil {
		return 0, fs.ErrClosed
	}
	return given, err
}

// called gives the name of a file for messages; that of no file is empty.
func called(file *os.File) string {
	if file == nil {
		return ""
	}
	return file.Name()
}

// texted makes a call by a text of C.
func texted(text string, call func(text *C.char) (int, error)) (int, error) {
	if strings.IndexByte(text, 0) >= 0 {
		return 0, invalid{syscall.EINVAL}
	}
	own := C.CString(text)
	defer C.free(unsafe.Pointer(own))
	return call(own)
}

// ignoringEINTR makes a call that may be made twice again where a signal interrupted it.
func ignoringEINTR(call func() (int, error)) (int, error) {
	for {
		given, err := call()
		if err != syscall.EINTR {
			return given, err
		}
	}
}

// of makes a call on one name below the root.
func (r *Root) of(op, name string, call func(root C.int, name *C.char) (int, error)) (int, error) {
	given, err := texted(name, func(name *C.char) (int, error) {
		return held(r.dir, func(root C.int) (int, error) { return call(root, name) })
	})
	if err != nil {
		return 0, &fs.PathError{Op: op, Path: name, Err: err}
	}
	return given, nil
}

// ofTwo makes a call on two names, of which the first may be a link's text.
func (r *Root) ofTwo(op, first, name string, call func(root C.int, first, name *C.char) (int, error)) (int, error) {
	given, err := texted(first, func(first *C.char) (int, error) {
		return texted(name, func(name *C.char) (int, error) {
			return held(r.dir, func(root C.int) (int, error) { return call(root, first, name) })
		})
	})
	if err != nil {
		return 0, &os.LinkError{Op: op, Old: first, New: name, Err: err}
	}
	return given, nil
}

// modeOf gives the bits of a mode that the kernel has, and leaves the others out, as package os does.
func modeOf(mode fs.FileMode) C.mode_t {
	bits := C.mode_t(mode.Perm())
	if mode&fs.ModeSetuid != 0 {
		bits |= 0o4000
	}
	if mode&fs.ModeSetgid != 0 {
		bits |= 0o2000
	}
	if mode&fs.ModeSticky != 0 {
		bits |= 0o1000
	}
	return bits
}

// newModeOf gives those of a new entry. Of a mode with others, as fs.ModeDir, it gives one that each call refuses.
func newModeOf(mode fs.FileMode) C.mode_t {
	if mode&^(fs.ModePerm|fs.ModeSetuid|fs.ModeSetgid|fs.ModeSticky) != 0 {
		return ^C.mode_t(0)
	}
	return modeOf(mode)
}
