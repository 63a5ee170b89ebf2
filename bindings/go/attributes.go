package inroot

// #include <inroot.h>
// #include <stdlib.h>
// #include <sys/stat.h>
import "C"

import (
	"io/fs"
	"strings"
	"syscall"
	"time"
)

// do makes a call on the object.
func (h *Handle) do(op string, call func(fd C.int) (int, error)) (int, error) {
	given, err := held(h.File, call)
	if err != nil {
		return 0, &fs.PathError{Op: op, Path: called(h.File), Err: err}
	}
	return given, nil
}

// on makes a call on what name means below the root.
func (r *Root) on(op, name string, flags C.int, call func(fd C.int) (int, error)) error {
	handle, err := r.resolve(op, name, name, flags)
	if err != nil {
		return err
	}
	defer handle.Close()
	_, err = handle.do(op, call)
	return err
}

func setsMode(mode fs.FileMode) func(fd C.int) (int, error) {
	return func(fd C.int) (int, error) { return result(C.inroot_fchmod(fd, modeOf(mode))) }
}

// Chmod sets the mode of a file or a directory, as os.Chmod does. A link at the end of name is followed.
func (r *Root) Chmod(name string, mode fs.FileMode) error {
	return r.on("chmodat", name, 0, setsMode(mode))
}

// Chmod sets the mode of the object. EOPNOTSUPP of a link.
func (h *Handle) Chmod(mode fs.FileMode) error {
	_, err := h.do("chmod", setsMode(mode))
	return err
}

// isOwner says whether a number is one of 32 bits, or -1. That of all ones would leave what is there.
func isOwner(number int) bool {
	return number >= -1 && int64(number) < 1<<32-1
}

func setsOwner(uid, gid int) func(fd C.int) (int, error) {
	return func(fd C.int) (int, error) {
		if !isOwner(uid) || !isOwner(gid) {
			return 0, invalid{syscall.EINVAL}
		}
		return result(C.inroot_fchown(fd, C.uid_t(uid), C.gid_t(gid)))
	}
}

// Chown sets the owner and the group of a file or a directory, as os.Chown does: -1 leaves one as it is. A link at
// the end of name is followed. EINVAL of a number that has more than 32 bits, EPERM without the right.
func (r *Root) Chown(name string, uid, gid int) error {
	return r.on("chownat", name, 0, setsOwner(uid, gid))
}

// Lchown does the same, but of a link at the end of name it sets those of the link itself.
func (r *Root) Lchown(name string, uid, gid int) error {
	return r.on("lchownat", name, C.INROOT_NOFOLLOW, setsOwner(uid, gid))
}

// Chown sets the owner and the group of the object, which may be a link, as [Root.Chown] does. Set the owner before
// the mode: the kernel takes the bits for set-user-ID and set-group-ID off.
func (h *Handle) Chown(uid, gid int) error {
	_, err := h.do("chown", setsOwner(uid, gid))
	return err
}

// specOf gives a time as the kernel has it; a zero one leaves what is there.
func specOf(at time.Time) C.struct_timespec {
	if at.IsZero() {
		return C.struct_timespec{tv_nsec: C.UTIME_OMIT}
	}
	return C.struct_timespec{tv_sec: C.time_t(at.Unix()), tv_nsec: C.long(at.Nanosecond())}
}

func setsTimes(atime, mtime time.Time) func(fd C.int) (int, error) {
	return func(fd C.int) (int, error) {
		times := [2]C.struct_timespec{specOf(atime), specOf(mtime)}
		return result(C.inroot_futimens(fd, &times[0]))
	}
}

// Chtimes sets the times of the last access and of the last change of the contents, as os.Chtimes does: a zero time
// leaves one as it is. A link at the end of name is followed.
func (r *Root) Chtimes(name string, atime, mtime time.Time) error {
	return r.on("chtimesat", name, 0, setsTimes(atime, mtime))
}

// Chtimes sets the times of the object, which may be a link, as [Root.Chtimes] does.
func (h *Handle) Chtimes(atime, mtime time.Time) error {
	_, err := h.do("chtimes", setsTimes(atime, mtime))
	return err
}

// Flags of Setxattr, as setxattr(2) has them.
const (
	XattrCreate  = 1 // EEXIST where the attribute is there already
	XattrReplace = 2 // ENODATA where it isn't there
)

// attribute makes a call on an extended attribute of the object.
func (h *Handle) attribute(op, attr string, call func(fd C.int, attr *C.char) (int, error)) (int, error) {
	return h.do(op, func(fd C.int) (int, error) {
		return texted(attr, func(attr *C.char) (int, error) { return call(fd, attr) })
	})
}

// Setxattr sets an extended attribute of the object, of a link its own. flags is 0, XattrCreate or XattrReplace.
// EOPNOTSUPP where the file system has none, EPERM of one that the object can't have.
func (h *Handle) Setxattr(attr string, value []byte, flags int) error {
	bytes := C.CBytes(value)
	defer C.free(bytes)
	_, err := h.attribute("setxattr", attr, func(fd C.int, attr *C.char) (int, error) {
		return result(C.inroot_fsetxattr(fd, attr, bytes, C.size_t(len(value)), number(flags)))
	})
	return err
}

// The most bytes that a value has, and all names of an object together.
const mostBytes = 65536

// Getxattr returns the value of an extended attribute of the object. ENODATA where there is none.
func (h *Handle) Getxattr(attr string) ([]byte, error) {
	room := C.malloc(mostBytes)
	defer C.free(room)
	length, err := h.attribute("getxattr", attr, func(fd C.int, attr *C.char) (int, error) {
		return result(C.inroot_fgetxattr(fd, attr, room, mostBytes))
	})
	if err != nil {
		return nil, err
	}
	return C.GoBytes(room, C.int(length)), nil
}

// Listxattr returns the names of the object's extended attributes.
func (h *Handle) Listxattr() ([]string, error) {
	room := C.malloc(mostBytes)
	defer C.free(room)
	length, err := h.do("listxattr", func(fd C.int) (int, error) {
		return result(C.inroot_flistxattr(fd, (*C.char)(room), mostBytes))
	})
	if err != nil || length == 0 {
		return nil, err
	}
	return strings.Split(string(C.GoBytes(room, C.int(length-1))), "\x00"), nil
}

// Removexattr removes an extended attribute of the object. ENODATA where there is none.
func (h *Handle) Removexattr(attr string) error {
	_, err := h.attribute("removexattr", attr, func(fd C.int, attr *C.char) (int, error) {
		return result(C.inroot_fremovexattr(fd, attr))
	})
	return err
}
