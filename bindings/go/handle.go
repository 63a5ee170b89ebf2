package inroot

// #include <inroot.h>
import "C"

import (
	"io/fs"
	"os"
	"syscall"
)

// A Handle is open on an object of any kind, also a device, a FIFO or a link, without a right to its contents
// (O_PATH): Read and Write give EBADF. It is the object whatever happens to its name. Stat, Fd, Name and Close are
// those of its File; Chmod and Chown are its own. Of any file that is open, &Handle{File: file} has the same methods.
type Handle struct{ *os.File }

// resolve opens what name means, and gives the file the name as.
func (r *Root) resolve(op, as, name string, flags C.int) (*Handle, error) {
	fd, err := r.of(op, name, func(root C.int, name *C.char) (int, error) {
		return ignoringEINTR(func() (int, error) { return result(C.inroot_open(root, name, r.with(flags))) })
	})
	if err != nil {
		return nil, err
	}
	return &Handle{os.NewFile(uintptr(fd), as)}, nil
}

// Resolve returns a Handle of what name means. It opens nothing for use, so it doesn't wait for a FIFO.
func (r *Root) Resolve(name string) (*Handle, error) {
	return r.resolve("resolve", r.nameOf(name), name, 0)
}

// ResolveNoFollow does the same, but of a link at the end of name it returns a Handle of the link itself.
func (r *Root) ResolveNoFollow(name string) (*Handle, error) {
	return r.resolve("resolve", r.nameOf(name), name, C.INROOT_NOFOLLOW)
}

// ResolveParent returns a Handle of the directory that has the entry of name, or in which it is to be made, and the
// entry's own name, for system calls that the library doesn't make. See to it that they follow no link there. EINVAL
// where the last part is no name, as ".."; ENOTDIR of a slash at the end, unless the root is With(Directory).
func (r *Root) ResolveParent(name string) (*Handle, string, error) {
	var last [256]C.char
	fd, err := r.of("resolve", name, func(root C.int, name *C.char) (int, error) {
		return ignoringEINTR(func() (int, error) {
			return result(C.inroot_open_parent(root, name, r.with(0), &last[0]))
		})
	})
	if err != nil {
		return nil, "", err
	}
	return &Handle{os.NewFile(uintptr(fd), r.nameOf(name))}, C.GoString(&last[0]), nil
}

// Reopen opens the object once more, for use by the flags of open(2). No name is walked again. ELOOP of a link, ENXIO
// of a socket, EISDIR of a directory that is opened for writing, EINVAL of flags that make a file.
func (h *Handle) Reopen(flag int) (*File, error) {
	fd, err := h.do("reopen", func(fd C.int) (int, error) {
		return ignoringEINTR(func() (int, error) { return result(C.inroot_reopen(fd, number(flag))) })
	})
	if err != nil {
		return nil, err
	}
	return usable(fd, h.Name()), nil
}

// Place returns where the object that file is open on stands below the root: its names, each with a slash before, or
// a slash for the root. ENOENT where it was removed, EXDEV where it isn't below the root.
func (r *Root) Place(file *os.File) (string, error) {
	var place [4096]C.char
	_, err := held(r.dir, func(root C.int) (int, error) {
		return held(file, func(fd C.int) (int, error) {
			return result(C.inroot_place(root, fd, &place[0], C.size_t(len(place))))
		})
	})
	if err != nil {
		return "", &fs.PathError{Op: "place", Path: called(file), Err: err}
	}
	return C.GoString(&place[0]), nil
}

// made gives a Handle of what a call has made, or the error.
func (r *Root) made(fd int, err error, name string) (*Handle, error) {
	if err != nil {
		return nil, err
	}
	return &Handle{os.NewFile(uintptr(fd), r.nameOf(name))}, nil
}

// MkdirAllHandle does what [Root.MkdirAll] does, and returns a Handle of the last directory.
func (r *Root) MkdirAllHandle(name string, perm fs.FileMode) (*Handle, error) {
	fd, err := r.mkdirAll(name, perm)
	return r.made(fd, err, name)
}

// MkfileAll returns a Handle of what is there, unless that is a directory (EISDIR). Else it makes an empty file of
// mode perm, and before that each directory above it that is missing, of mode above. ENOENT of a link whose target is
// missing, unless the root is With(Follow). What was made before an error stays.
func (r *Root) MkfileAll(name string, perm, above fs.FileMode) (*Handle, error) {
	fd, err := r.of("mkfileall", name, func(root C.int, name *C.char) (int, error) {
		return result(C.inroot_mkfile_all(root, name, newModeOf(perm), newModeOf(above), r.with(0)))
	})
	return r.made(fd, err, name)
}

// MkdirHandle does what [Root.Mkdir] does, and returns a Handle of the directory.
//
// It, MknodHandle, SymlinkHandle and LinkHandle make the entry, and then open it by its name, in the directory in
// which they made it. A file, and what got a second name, is the very one. Of any other, the kind, a link's text and
// a device's number are those that were made; whoever may rename there may have put another such one in its place.
// EAGAIN where the entry was taken away or replaced otherwise: it was made, and so it was where EMFILE, ENFILE,
// ENOMEM, EACCES or EIO comes from this opening.
func (r *Root) MkdirHandle(name string, perm fs.FileMode) (*Handle, error) {
	fd, err := r.mkdir(name, perm, C.INROOT_GIVE)
	return r.made(fd, err, name)
}

// MknodHandle does what [Root.Mknod] does, and returns a Handle as [Root.MkdirHandle] does.
func (r *Root) MknodHandle(name string, mode uint32, device uint64) (*Handle, error) {
	fd, err := r.mknod(name, mode, device, C.INROOT_GIVE)
	return r.made(fd, err, name)
}

// SymlinkHandle does what [Root.Symlink] does, and returns a Handle of the link itself as [Root.MkdirHandle] does.
func (r *Root) SymlinkHandle(oldname, newname string) (*Handle, error) {
	fd, err := r.symlink(oldname, newname, C.INROOT_GIVE)
	return r.made(fd, err, newname)
}

// LinkHandle does what [Root.Link] does, and returns a Handle of the object as [Root.MkdirHandle] does.
func (r *Root) LinkHandle(oldname, newname string) (*Handle, error) {
	fd, err := r.link(oldname, newname, C.INROOT_GIVE)
	return r.made(fd, err, newname)
}

// closed lets go what a call has given beside its error.
func closed(fd int, err error) error {
	if err != nil {
		return err
	}
	return syscall.Close(fd)
}
