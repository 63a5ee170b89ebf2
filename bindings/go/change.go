package inroot

// #include <inroot.h>
import "C"

import (
	"errors"
	"io/fs"
	"os"
	"path"
	"syscall"
)

// Mkdir makes a directory of mode perm less the umask, as os.Mkdir does. EEXIST where there is such an entry, a link
// too.
func (r *Root) Mkdir(name string, perm fs.FileMode) error {
	_, err := r.mkdir(name, perm, 0)
	return err
}

func (r *Root) mkdir(name string, perm fs.FileMode, flags C.int) (int, error) {
	return r.of("mkdirat", name, func(root C.int, name *C.char) (int, error) {
		return result(C.inroot_mkdir(root, name, newModeOf(perm), r.with(flags)))
	})
}

// MkdirAll makes each directory of name that is missing, none of them through a link, of mode perm less the umask.
// One that is there keeps its mode. ENOTDIR where something else is there, ENOENT of a link whose target is missing,
// unless the root is With(Follow). Directories that were made before an error stay.
func (r *Root) MkdirAll(name string, perm fs.FileMode) error {
	return closed(r.mkdirAll(name, perm))
}

func (r *Root) mkdirAll(name string, perm fs.FileMode) (int, error) {
	return r.of("mkdirat", name, func(root C.int, name *C.char) (int, error) {
		return result(C.inroot_mkdir_all(root, name, newModeOf(perm), r.with(0)))
	})
}

// Mknod makes an empty file, a FIFO, a socket or a device, as mknod(2) does: mode has its kind, and permissions, of
// which the umask is taken. device is 0 unless a device is made. EEXIST where there is such an entry, EPERM without
// the right.
func (r *Root) Mknod(name string, mode uint32, device uint64) error {
	_, err := r.mknod(name, mode, device, 0)
	return err
}

func (r *Root) mknod(name string, mode uint32, device uint64, flags C.int) (int, error) {
	return r.of("mknodat", name, func(root C.int, name *C.char) (int, error) {
		return result(C.inroot_mknod(root, name, C.mode_t(mode), C.dev_t(device), r.with(flags)))
	})
}

// Symlink makes newname as a link with the text oldname, which is any text, and is followed below the root. EEXIST
// where there is such an entry.
func (r *Root) Symlink(oldname, newname string) error {
	_, err := r.symlink(oldname, newname, 0)
	return err
}

func (r *Root) symlink(oldname, newname string, flags C.int) (int, error) {
	return r.ofTwo("symlinkat", oldname, newname, func(root C.int, text, name *C.char) (int, error) {
		return result(C.inroot_symlink(root, text, name, r.with(flags)))
	})
}

// Link gives what oldname means a second name; of a link at its end, the link itself, unless the root is
// With(Follow). EEXIST where there is such an entry, EPERM of a directory, EXDEV to another mount.
func (r *Root) Link(oldname, newname string) error {
	_, err := r.link(oldname, newname, 0)
	return err
}

func (r *Root) link(oldname, newname string, flags C.int) (int, error) {
	return r.ofTwo("linkat", oldname, newname, func(root C.int, existing, name *C.char) (int, error) {
		return result(C.inroot_link(root, existing, name, r.with(flags)))
	})
}

// LinkFile gives the object that file is open on, wherever that is, the name newname: a file that
// [Root.CreateUnnamed] has made, or the File of a Handle. Errors are those of [Root.Link].
func (r *Root) LinkFile(file *os.File, newname string) error {
	_, err := texted(newname, func(name *C.char) (int, error) {
		return held(r.dir, func(root C.int) (int, error) {
			return held(file, func(fd C.int) (int, error) {
				return result(C.inroot_link_fd(root, fd, name, r.with(0)))
			})
		})
	})
	if err != nil {
		return &os.LinkError{Op: "linkat", Old: called(file), New: newname, Err: err}
	}
	return nil
}

// Remove removes a file or an empty directory; of a link the link alone. ENOENT where there is none, ENOTEMPTY of a
// directory with entries.
func (r *Root) Remove(name string) error {
	err := r.Unlink(name)
	// A slash behind the name of a directory is ENOTDIR for what isn't one.
	if !errors.Is(err, syscall.EISDIR) && !errors.Is(err, syscall.ENOTDIR) {
		return err
	}
	if asDirectory := r.Rmdir(name); !errors.Is(asDirectory, syscall.ENOTDIR) {
		return asDirectory
	}
	return err
}

// Unlink removes what isn't a directory; of a link the link alone. ENOENT where there is none, EISDIR of a directory.
func (r *Root) Unlink(name string) error {
	_, err := r.of("unlinkat", name, func(root C.int, name *C.char) (int, error) {
		return result(C.inroot_unlink(root, name, r.with(0)))
	})
	return err
}

// Rmdir removes an empty directory. ENOENT where there is none, ENOTDIR of anything else, ENOTEMPTY where it has
// entries.
func (r *Root) Rmdir(name string) error {
	_, err := r.of("unlinkat", name, func(root C.int, name *C.char) (int, error) {
		return result(C.inroot_rmdir(root, name, r.with(0)))
	})
	return err
}

// RemoveAll removes an entry with all that is below it; of a link the link alone. If there is none, or no directory
// for it, that is no error. Entries that were removed before an error stay removed. EBUSY where one is in use, as a
// mount point.
func (r *Root) RemoveAll(name string) error {
	_, err := r.RemoveAllCount(name)
	return err
}

// RemoveAllCount does the same, and returns how many entries it removed.
func (r *Root) RemoveAllCount(name string) (int, error) {
	count, err := r.of("RemoveAll", name, func(root C.int, name *C.char) (int, error) {
		return result(C.inroot_remove_all(root, name, r.with(0)))
	})
	if errors.Is(err, fs.ErrNotExist) {
		return 0, nil
	}
	return count, err
}

// RenameFlags say how [Root.RenameWith] treats an entry that is there already.
type RenameFlags int

const (
	// RenameNoReplace leaves newname alone: EEXIST where there is such an entry.
	RenameNoReplace RenameFlags = C.INROOT_NOREPLACE
	// RenameExchange exchanges the two. EINVAL with another flag.
	RenameExchange RenameFlags = C.INROOT_EXCHANGE
	// RenameWhiteout leaves a whiteout of overlayfs at oldname. EINVAL where the file system has none.
	RenameWhiteout RenameFlags = C.INROOT_WHITEOUT
)

// Rename renames an entry, which stays below the root, and replaces newname where that is there, as os.Rename does:
// EEXIST where newname is a directory, which the call looks at before.
func (r *Root) Rename(oldname, newname string) error {
	there, err := r.Lstat(newname)
	if last := path.Base(newname); err == nil && there.IsDir() && last != "/" && last != "." && last != ".." {
		old, err := r.Lstat(oldname)
		if err == nil && !(newname != oldname && os.SameFile(there, old)) {
			return &os.LinkError{Op: "renameat", Old: oldname, New: newname, Err: syscall.EEXIST}
		}
	}
	return r.RenameWith(oldname, newname, 0)
}

// RenameWith does so by flags, as renameat2(2) does. It replaces an empty directory by a directory.
func (r *Root) RenameWith(oldname, newname string, flags RenameFlags) error {
	_, err := r.ofTwo("renameat", oldname, newname, func(root C.int, from, to *C.char) (int, error) {
		return result(C.inroot_rename(root, from, to, number(int(flags)), r.with(0)))
	})
	return err
}
