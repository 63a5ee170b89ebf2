// Unpack unpacks a tar archive below a directory, whatever its names and links lead to, as an image builder does.
//
// usage: unpack [-o] [-s] [-t] ROOT <ARCHIVE
//
//	-o   sets the owners of the entries, by their numbers
//	-s   walks to each entry by its whole path, so that none is made in a directory that was moved out before
//	-t   sets the times at which they were changed
//
// Each name of the archive is a path below ROOT. An entry that is there already is replaced, a link too: nothing is
// written through it. Modes are set. An entry that can't be made is told, and the others are made. Statuses: 0, 1 where
// an entry could not be made, 2 a wrong command line, 4 any other fault.
package main

import (
	"archive/tar"
	"bufio"
	"errors"
	"flag"
	"fmt"
	"io"
	"io/fs"
	"os"
	"strings"
	"syscall"
	"time"

	"gimowheta.example/inroot"
)

// A directory's owner, mode and time are set at the end: one that may not be written to could not be filled otherwise.
type directory struct {
	name   string
	header *tar.Header
}

// object is a directory's device and inode.
type object struct {
	device, inode uint64
}

type unpacking struct {
	root                  *inroot.Root
	above                 *inroot.Handle // the directory of the last entry, or nil; and its path
	aboveName             string
	at                    *inroot.Root // where the paths of calls begin: that directory, or the root
	owners, strict, times bool
	failed                bool
	again                 bool // a directory was there already, so it may have come before
	archive               *tar.Reader
	buffer                []byte
	directories           []directory
	set                   map[object]bool // those of them that are set
}

// fail tells what went wrong, without letting the archive's bytes at a terminal.
func (u *unpacking) fail(name string, what error) {
	var path *os.PathError
	var link *os.LinkError
	switch {
	case errors.As(what, &path):
		what = path.Err
	case errors.As(what, &link):
		what = link.Err
	}
	fmt.Fprintf(os.Stderr, "unpack: %q: %v\n", name, what)
	u.failed = true
}

// lookAgain tells where others have moved the directory of the last entry meanwhile, out of the root as well: then what
// was made in it since it was opened may stand there.
func (u *unpacking) lookAgain() {
	was, err := u.above.Stat()
	if err == nil {
		now, failed := u.root.Stat(u.aboveName)
		if err = failed; err == nil && !os.SameFile(was, now) {
			err = syscall.ESTALE
		}
	}
	if err != nil {
		u.fail(u.aboveName, errors.New("somebody moved or removed it while entries were made in it"))
	}
}

// closeAbove closes the directory of the last entry.
func (u *unpacking) closeAbove() {
	if u.above == nil {
		return
	}
	if !u.strict {
		u.lookAgain()
	}
	u.above.Close()
	u.above = nil
}

// openAbove has the entry's directory open, which is made where it is missing. It gives the last name.
func (u *unpacking) openAbove(name string) (last string, err error) {
	// Not path.Split, which takes `a/..` away before links are looked at.
	slash := strings.LastIndexByte(name, '/')
	above := "."
	if slash > 0 {
		above = name[:slash]
	}
	last = name[slash+1:]
	if u.above != nil && above == u.aboveName {
		return last, nil
	}
	u.closeAbove()
	u.aboveName = above
	opened, err := u.root.MkdirAllHandle(above, 0o755)
	if err != nil {
		return last, err
	}
	u.above, u.at = opened, u.root
	if !u.strict {
		u.at = inroot.NewRoot(opened.File)
	}
	return last, nil
}

// makeRoom removes what is at the name, so that the entry is made anew.
func (u *unpacking) makeRoom(last string) error {
	err := u.at.Unlink(last)
	if errors.Is(err, syscall.EISDIR) {
		err = u.at.With(inroot.NoXDev).RemoveAll(last)
	}
	if errors.Is(err, fs.ErrNotExist) {
		return nil
	}
	return err
}

// setFound sets what is to be set of what was found or made. The owner first: the kernel takes bits of the mode off.
func (u *unpacking) setFound(found *inroot.Handle, header *tar.Header) error {
	if u.owners {
		// -1 would leave what is there.
		if header.Uid < 0 || header.Gid < 0 {
			return syscall.EINVAL
		}
		if err := found.Chown(header.Uid, header.Gid); err != nil {
			return err
		}
	}
	if header.Typeflag != tar.TypeSymlink {
		if err := found.Chmod(header.FileInfo().Mode()); err != nil {
			return err
		}
	}
	if u.times {
		return found.Chtimes(time.Time{}, header.ModTime)
	}
	return nil
}

// setGiven does that to an entry that was made and given.
func (u *unpacking) setGiven(given *inroot.Handle, err error, header *tar.Header) error {
	if err != nil {
		return err
	}
	defer given.Close()
	return u.setFound(given, header)
}

func (u *unpacking) makeFile(last string, header *tar.Header) error {
	// O_EXCL: it is this call that makes it, so that nobody's file is written to.
	file, err := u.at.OpenFile(last, os.O_WRONLY|os.O_CREATE|os.O_EXCL, 0o600)
	if err != nil {
		return err
	}
	// Without the file's own ReadFrom, which tries system calls that don't take an archive's part.
	_, err = io.CopyBuffer(struct{ io.Writer }{file}, struct{ io.Reader }{u.archive}, u.buffer)
	if err == nil {
		err = u.setFound(&inroot.Handle{File: file.File}, header)
	}
	if closed := file.Close(); err == nil {
		err = closed
	}
	return err
}

func (u *unpacking) makeNode(last string, kind uint32, header *tar.Header) error {
	major, minor := uint64(header.Devmajor), uint64(header.Devminor)
	device := (major&0xfff)<<8 | (major>>12)<<44 | minor&0xff | (minor>>8)<<20
	if kind == syscall.S_IFIFO {
		device = 0
	}
	given, err := u.at.MknodHandle(last, kind|0o600, device)
	return u.setGiven(given, err, header)
}

func (u *unpacking) makeLink(last string, header *tar.Header) error {
	if !u.owners && !u.times {
		return u.at.Symlink(header.Linkname, last)
	}
	given, err := u.at.SymlinkHandle(header.Linkname, last)
	return u.setGiven(given, err, header)
}

// isThere says whether the name is that object's already.
func (u *unpacking) isThere(last string, object *inroot.Handle) bool {
	found, err := u.at.Lstat(last)
	if err != nil {
		return false
	}
	about, err := object.Stat()
	return err == nil && os.SameFile(found, about)
}

// makeSecondName leaves what has the name already: a file that comes twice is a link to itself the second time.
func (u *unpacking) makeSecondName(last string, header *tar.Header) error {
	existing, err := u.root.ResolveNoFollow(header.Linkname)
	if err != nil {
		return err
	}
	defer existing.Close()
	err = u.at.LinkFile(existing.File, last)
	if errors.Is(err, syscall.EEXIST) && u.isThere(last, existing) {
		return nil
	}
	return err
}

// makeNew makes the entry in the directory that is open, or gives EEXIST.
func (u *unpacking) makeNew(last string, header *tar.Header) error {
	switch header.Typeflag {
	case tar.TypeLink:
		return u.makeSecondName(last, header)
	case tar.TypeSymlink:
		return u.makeLink(last, header)
	case tar.TypeChar:
		return u.makeNode(last, syscall.S_IFCHR, header)
	case tar.TypeBlock:
		return u.makeNode(last, syscall.S_IFBLK, header)
	case tar.TypeDir:
		return u.at.Mkdir(last, 0o700)
	case tar.TypeFifo:
		return u.makeNode(last, syscall.S_IFIFO, header)
	case tar.TypeReg, tar.TypeCont:
		return u.makeFile(last, header)
	case 'D', 'K', 'L', 'M', 'N', 'S', 'V':
		return syscall.EOPNOTSUPP
	}
	fmt.Fprintf(os.Stderr, "unpack: %q: its type is unknown: it is made as a file\n", header.Name)
	return u.makeFile(last, header)
}

// makeInPlace replaces what is there already, but for a directory where one is wanted.
func (u *unpacking) makeInPlace(last string, header *tar.Header) error {
	err := u.makeNew(last, header)
	if !errors.Is(err, syscall.EEXIST) {
		return err
	}
	if header.Typeflag == tar.TypeDir {
		if about, err := u.at.Lstat(last); err == nil && about.IsDir() {
			u.again = true
			return nil
		}
	}
	if err := u.makeRoom(last); err != nil {
		return err
	}
	return u.makeNew(last, header)
}

// makeDirectories makes what a path without a last name means, as "..": a directory or nothing.
func (u *unpacking) makeDirectories(name string, header *tar.Header) error {
	if header.Typeflag != tar.TypeDir {
		return syscall.EINVAL
	}
	u.again = u.again || len(u.directories) > 0
	return u.root.MkdirAll(name, 0o700)
}

func (u *unpacking) makeEntry(name string, header *tar.Header) error {
	last, err := u.openAbove(name)
	switch {
	case err != nil:
		return err
	case last == "" || last == "." || last == "..":
		err = u.makeDirectories(name, header)
	case u.strict:
		err = u.makeInPlace(name, header)
	default:
		err = u.makeInPlace(last, header)
	}
	// Where the directory is gone, the next entry has it made anew.
	if errors.Is(err, syscall.ENOENT) {
		u.closeAbove()
	}
	if err == nil && header.Typeflag == tar.TypeDir {
		u.directories = append(u.directories, directory{name, header})
	}
	return err
}

// isNew says whether this directory isn't set yet.
func (u *unpacking) isNew(found *inroot.File) (bool, error) {
	about, err := found.Stat()
	if err != nil {
		return false, err
	}
	status := about.Sys().(*syscall.Stat_t)
	which := object{uint64(status.Dev), status.Ino}
	isNew := !u.set[which]
	u.set[which] = true
	return isNew, nil
}

// setDirectory sets what is to be set of a directory; of one that came more than once, what came last. The archive may
// have put something else in its place: a link is not followed.
func (u *unpacking) setDirectory(one directory) error {
	const oPath = 0x200000
	flags := oPath | syscall.O_DIRECTORY | syscall.O_NOFOLLOW
	found, err := u.root.OpenFile(one.name, flags, 0)
	if err != nil {
		return err
	}
	defer found.Close()
	if u.again {
		if isNew, err := u.isNew(found); !isNew {
			return err
		}
	}
	return u.setFound(&inroot.Handle{File: found.File}, one.header)
}

func (u *unpacking) unpack() int {
	for {
		header, err := u.archive.Next()
		if err == io.EOF {
			break
		}
		if err != nil {
			fmt.Fprintf(os.Stderr, "unpack: the archive: %v\n", err)
			return 4
		}
		// What a global header says is the default of all entries: nothing that is set here.
		if header.Typeflag == tar.TypeXGlobalHeader {
			continue
		}
		name := header.Name
		for len(name) > 1 && strings.HasSuffix(name, "/") {
			name = name[:len(name)-1]
		}
		if err := u.makeEntry(name, header); err != nil {
			u.fail(name, err)
		}
	}
	u.closeAbove()
	for i := len(u.directories) - 1; i >= 0; i-- {
		if err := u.setDirectory(u.directories[i]); err != nil {
			u.fail(u.directories[i].name, err)
		}
	}
	if u.failed {
		return 1
	}
	return 0
}

func main() {
	owners := flag.Bool("o", false, "sets the owners of the entries, by their numbers")
	strict := flag.Bool("s", false, "walks to each entry by its whole path")
	times := flag.Bool("t", false, "sets the times at which they were changed")
	flag.Usage = func() { fmt.Fprintln(os.Stderr, "usage: unpack [-o] [-s] [-t] ROOT <ARCHIVE") }
	flag.Parse()
	if flag.NArg() != 1 {
		flag.Usage()
		os.Exit(2)
	}
	root, err := inroot.OpenRoot(flag.Arg(0))
	if err != nil {
		fmt.Fprintf(os.Stderr, "unpack: %v\n", err)
		os.Exit(4)
	}
	u := unpacking{
		root: root, owners: *owners, strict: *strict, times: *times,
		archive: tar.NewReader(bufio.NewReaderSize(os.Stdin, 1<<18)), buffer: make([]byte, 1<<16),
		set: map[object]bool{},
	}
	status := u.unpack()
	root.Close()
	os.Exit(status)
}
