package inroot

// #include <inroot.h>
import "C"

import (
	"io/fs"
	"os"
	"path/filepath"
	"strconv"
)

// UsePrivateProc has all calls ask a proc(5) that is mounted nowhere, in place of /proc: inroot_use_private_proc(3).
// Call it before any other. EBUSY where there is one already, EPERM without CAP_SYS_ADMIN.
func UsePrivateProc() error {
	_, err := result(C.inroot_use_private_proc())
	return err
}

// UseProc has all calls ask the proc(5) of which proc is the topmost directory, in place of /proc:
// inroot_use_proc(3). Call it before any other; proc may be closed afterwards. EINVAL of another file system, EBUSY
// where there is one already.
func UseProc(proc *os.File) error {
	_, err := (&Handle{proc}).do("useproc", func(fd C.int) (int, error) { return result(C.inroot_use_proc(fd)) })
	return err
}

// Where a path of ProcOpen and ProcReadlink begins; or at the process that has a number above 0. A goroutine may go
// on in another thread: one that begins at ProcThreadSelf calls runtime.LockOSThread before.
const (
	ProcRoot       = C.INROOT_PROC_ROOT
	ProcSelf       = C.INROOT_PROC_SELF
	ProcThreadSelf = C.INROOT_PROC_THREAD_SELF
)

// procName gives a name for messages.
func procName(base int, path string) string {
	begins := map[int]string{ProcRoot: "", ProcSelf: "self", ProcThreadSelf: "thread-self"}
	at, is := begins[base]
	if !is {
		at = strconv.Itoa(base)
	}
	return filepath.Join("/proc", at, filepath.Join("/", path))
}

// inProc makes a call on a path there.
func inProc(op, path string, call func(path *C.char) (int, error)) (int, error) {
	given, err := texted(path, func(path *C.char) (int, error) {
		return ignoringEINTR(func() (int, error) { return call(path) })
	})
	if err != nil {
		return 0, &fs.PathError{Op: op, Path: path, Err: err}
	}
	return given, nil
}

// ProcOpen opens a file of the proc(5) by which the calls go, and fails with EXDEV where something is mounted over it
// or over a part of the path: inroot_proc_open(3). A link at the end is followed without O_NOFOLLOW.
func ProcOpen(base int, path string, flag int) (*File, error) {
	fd, err := inProc("procopen", path, func(path *C.char) (int, error) {
		return result(C.inroot_proc_open(number(base), path, number(flag)))
	})
	if err != nil {
		return nil, err
	}
	return &File{os.NewFile(uintptr(fd), procName(base, path))}, nil
}

// ProcReadlink returns the text of a link there. EINVAL of anything else.
func ProcReadlink(base int, path string) (string, error) {
	var text [4096]C.char
	length, err := inProc("procreadlink", path, func(path *C.char) (int, error) {
		return result(C.inroot_proc_readlink(number(base), path, &text[0], C.size_t(len(text))))
	})
	if err != nil {
		return "", err
	}
	return C.GoStringN(&text[0], C.int(length)), nil
}
