package inroot

// #define _GNU_SOURCE
// #include <fcntl.h>
// #include <inroot.h>
import "C"

import (
	"io"
	"io/fs"
	"os"
)

// Open opens a file or a directory for reading, as os.Open does.
func (r *Root) Open(name string) (*File, error) {
	return r.OpenFile(name, os.O_RDONLY, 0)
}

// OpenInRoot opens a file below a directory for reading, as os.OpenInRoot does: a [Root] that is open for one call.
func OpenInRoot(dir, name string) (*File, error) {
	root, err := OpenRoot(dir)
	if err != nil {
		return nil, err
	}
	defer root.Close()
	return root.Open(name)
}

// Create opens a file for reading and writing, as os.Create does: it is emptied if it is there, else made of mode
// 0o666 less the umask. EISDIR of a directory.
func (r *Root) Create(name string) (*File, error) {
	return r.OpenFile(name, os.O_RDWR|os.O_CREATE|os.O_TRUNC, 0o666)
}

// makesFile is the bit of O_TMPFILE that O_DIRECTORY hasn't.
const makesFile = C.O_TMPFILE &^ C.O_DIRECTORY

// OpenFile opens a file by the flags of open(2), as os.OpenFile does: ENOENT where it is missing, EEXIST of O_EXCL
// where it isn't, EINVAL of other flags. With O_CREATE it makes a file that is missing, of mode perm less the umask.
// A link at the end is followed. If its target is missing, O_CREATE without O_EXCL makes the target, below the root.
//
// If perm has other bits than those of permissions and fs.ModeSetuid, fs.ModeSetgid and fs.ModeSticky, nothing is
// made and the error is EINVAL. So it is in all calls that make an entry.
func (r *Root) OpenFile(name string, flag int, perm fs.FileMode) (*File, error) {
	return r.openAs(r.nameOf(name), name, flag, perm)
}

// openAs does so, and gives the file the name as.
func (r *Root) openAs(as, name string, flag int, perm fs.FileMode) (*File, error) {
	bits := newModeOf(perm)
	if flag&(os.O_CREATE|makesFile) == 0 {
		bits = 0
	}
	fd, err := r.of("openat", name, func(root C.int, name *C.char) (int, error) {
		open := func() (int, error) { return result(C.inroot_openat(root, name, number(flag), bits, r.with(0))) }
		if flag&os.O_EXCL != 0 {
			return open()
		}
		return ignoringEINTR(open)
	})
	if err != nil {
		return nil, err
	}
	return usable(fd, as), nil
}

// CreateUnnamed makes a file without a name in the file system of that directory, of mode perm less the umask, and
// opens it for reading and writing (O_TMPFILE). [Root.LinkFile] gives it a name. EOPNOTSUPP where the file system has
// none.
func (r *Root) CreateUnnamed(directory string, perm fs.FileMode) (*File, error) {
	return r.OpenFile(directory, os.O_RDWR|C.O_TMPFILE, perm)
}

// ReadFile returns the contents of a file, as os.ReadFile does.
func (r *Root) ReadFile(name string) ([]byte, error) {
	file, err := r.openAs(name, name, os.O_RDONLY, 0)
	if err != nil {
		return nil, err
	}
	defer file.Close()
	return io.ReadAll(file)
}

// WriteFile writes the contents of a file, as os.WriteFile does: the file is emptied before if it is there, else made
// of mode perm less the umask.
func (r *Root) WriteFile(name string, data []byte, perm fs.FileMode) error {
	file, err := r.openAs(name, name, os.O_WRONLY|os.O_CREATE|os.O_TRUNC, perm)
	if err != nil {
		return err
	}
	_, err = file.Write(data)
	if closed := file.Close(); err == nil {
		err = closed
	}
	return err
}

// Readlink returns the text of the link at the end of name. EINVAL of anything else.
func (r *Root) Readlink(name string) (string, error) {
	var text [4096]C.char
	length, err := r.of("readlinkat", name, func(root C.int, name *C.char) (int, error) {
		return ignoringEINTR(func() (int, error) {
			return result(C.inroot_readlink(root, name, r.with(0), &text[0], C.size_t(len(text))))
		})
	})
	if err != nil {
		return "", err
	}
	return C.GoStringN(&text[0], C.int(length)), nil
}

// Stat returns the status of a file or a directory, as os.Stat does.
func (r *Root) Stat(name string) (fs.FileInfo, error) {
	return r.status("statat", name, 0)
}

// Lstat does the same, but of a link at the end of name it returns that of the link itself.
func (r *Root) Lstat(name string) (fs.FileInfo, error) {
	return r.status("lstatat", name, C.INROOT_NOFOLLOW)
}

func (r *Root) status(op, name string, flags C.int) (fs.FileInfo, error) {
	handle, err := r.resolve(op, name, name, flags)
	if err != nil {
		return nil, err
	}
	defer handle.Close()
	return handle.Stat()
}
