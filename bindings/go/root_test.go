package inroot

import (
	"errors"
	"fmt"
	"io"
	"io/fs"
	"os"
	"path/filepath"
	"reflect"
	"runtime"
	"strings"
	"sync/atomic"
	"syscall"
	"testing"
)

// seen gives what is below a directory: of each entry its name, what its status has, and its contents or its text.
func seen(t *testing.T, dir string) string {
	t.Helper()
	var all strings.Builder
	must(t, filepath.WalkDir(dir, func(path string, entry fs.DirEntry, err error) error {
		must(t, err)
		about, err := entry.Info()
		must(t, err)
		status := about.Sys().(*syscall.Stat_t)
		fmt.Fprint(&all, strings.TrimPrefix(path, dir), about.Mode(), status.Uid, status.Gid, status.Nlink)
		switch about.Mode().Type() {
		case 0:
			text, err := os.ReadFile(path)
			fmt.Fprintf(&all, " %q %v", text, err)
		case fs.ModeSymlink:
			text, err := os.Readlink(path)
			fmt.Fprintf(&all, " %q %v", text, err)
		}
		fmt.Fprintln(&all)
		return nil
	}))
	return all.String()
}

// tree makes a directory with outside/secret and, beside it, the root box, whose links lead there.
func tree(t *testing.T) (string, *Root) {
	top := t.TempDir()
	must(t, os.MkdirAll(filepath.Join(top, "box/a/b"), 0o755))
	must(t, os.Mkdir(filepath.Join(top, "outside"), 0o755))
	must(t, os.WriteFile(filepath.Join(top, "outside/secret"), []byte("secret"), 0o644))
	must(t, os.WriteFile(filepath.Join(top, "box/a/b/f"), []byte("inside"), 0o644))
	must(t, os.Symlink("/a/../../a/b", filepath.Join(top, "box/in")))
	must(t, os.Symlink("../outside", filepath.Join(top, "box/up")))
	must(t, os.Symlink(filepath.Join(top, "outside"), filepath.Join(top, "box/abs")))
	root, err := OpenRoot(filepath.Join(top, "box"))
	must(t, err)
	outside := seen(t, filepath.Join(top, "outside"))
	t.Cleanup(func() {
		must(t, root.Close())
		if now := seen(t, filepath.Join(top, "outside")); now != outside {
			t.Errorf("what is outside was changed to %s", now)
		}
	})
	return top, root
}

func must(t *testing.T, err error) {
	t.Helper()
	if err != nil {
		t.Fatal(err)
	}
}

func fails(t *testing.T, err error, wanted error) {
	t.Helper()
	if !errors.Is(err, wanted) {
		t.Errorf("%v, and not %v", err, wanted)
	}
}

// is says where a call failed, or where it gave something else.
func is(t *testing.T, what string, err error, wanted string) {
	t.Helper()
	if err != nil || what != wanted {
		t.Errorf("%q, %v, and not %q", what, err, wanted)
	}
}

func textOf(t *testing.T, file *File, err error) string {
	t.Helper()
	must(t, err)
	defer file.Close()
	text, err := io.ReadAll(file)
	must(t, err)
	return string(text)
}

func TestInside(t *testing.T) {
	_, root := tree(t)
	for _, name := range []string{"a/b/f", "in/f", "/a/../../in/f", "../../a/b/f"} {
		file, err := root.Open(name)
		is(t, textOf(t, file, err), nil, "inside")
		handle, err := root.Resolve(name)
		must(t, err)
		file, err = handle.Reopen(os.O_RDONLY)
		is(t, textOf(t, file, err), nil, "inside")
		_, err = handle.Read(make([]byte, 1))
		fails(t, err, syscall.EBADF)
		must(t, handle.Close())
	}
	about, err := root.Stat("in")
	must(t, err)
	if !about.IsDir() {
		t.Errorf("in is %v", about.Mode())
	}
}

func TestNoLinkLeadsOut(t *testing.T) {
	_, root := tree(t)
	for _, name := range []string{"up/secret", "abs/secret", "../outside/secret", "in/../../../outside/secret"} {
		_, err := root.Open(name)
		fails(t, err, syscall.ENOENT)
		_, err = root.Resolve(name)
		fails(t, err, syscall.ENOENT)
		_, err = root.Create(name)
		fails(t, err, syscall.ENOENT)
		fails(t, root.WriteFile(name, nil, 0o600), syscall.ENOENT)
		fails(t, root.Chmod(name, 0), syscall.ENOENT)
		fails(t, root.Remove(name), syscall.ENOENT)
		fails(t, root.Link(name, "stolen"), syscall.ENOENT)
		fails(t, root.Rename("in", name), syscall.ENOENT)
		_, err = root.With(Beneath).Stat(name)
		fails(t, err, syscall.EXDEV)
	}
	for _, name := range []string{"up/x", "abs/secret/x"} {
		fails(t, root.MkdirAll(name, 0o755), syscall.ENOENT)
	}
}

// Where the root has what a link would lead to outside, it leads to that.
func TestLinksLeadBelow(t *testing.T) {
	top, root := tree(t)
	below := filepath.Join(top, "box", top, "outside")
	must(t, os.MkdirAll(below, 0o755))
	must(t, os.WriteFile(filepath.Join(below, "secret"), []byte("below"), 0o644))
	text, err := root.ReadFile("abs/secret")
	is(t, string(text), err, "below")
	must(t, root.WriteFile("abs/new", []byte("new"), 0o600))
	must(t, root.Chmod("abs/secret", 0o600))
	must(t, root.Chown("abs", os.Getuid(), -1))
	must(t, root.Mkdir("abs/made", 0o700))
	must(t, root.MkdirAll("abs/made/all", 0o700))
	must(t, root.Symlink("../outside", "abs/link"))
	must(t, root.Link("abs/secret", "abs/second"))
	must(t, root.Rename("abs/second", "abs/third"))
	must(t, root.Remove("abs/third"))
	must(t, root.RemoveAll("abs/made"))
	sub, err := root.OpenRoot("abs")
	must(t, err)
	defer sub.Close()
	text, err = sub.ReadFile("../../secret")
	is(t, string(text), err, "below")
	names, err := os.ReadDir(below)
	if err != nil || len(names) != 3 {
		t.Errorf("below are %v, %v", names, err)
	}
}

func TestMaking(t *testing.T) {
	top, root := tree(t)
	old := syscall.Umask(0o022)
	defer syscall.Umask(old)
	must(t, root.MkdirAll("in/x/y", 0o711))
	made, err := root.MkdirAllHandle("in/x/y", 0o755)
	must(t, err)
	about, err := made.Stat()
	must(t, err)
	must(t, made.Close())
	if about.Mode() != fs.ModeDir|0o711 {
		t.Errorf("a directory of mode %v", about.Mode())
	}
	must(t, root.Mkdir("sticky", 0o777|fs.ModeSticky))
	must(t, root.Mknod("fifo", syscall.S_IFIFO|0o600, 0))
	must(t, root.Symlink("/a/b/f", "in/link"))
	must(t, root.Link("in/f", "second"))
	fails(t, root.Symlink("x", "in"), fs.ErrExist)
	wanted := map[string]fs.FileMode{
		"sticky": fs.ModeDir | fs.ModeSticky | 0o755, "fifo": fs.ModeNamedPipe | 0o600, "second": 0o644,
		"a/b/link": fs.ModeSymlink | 0o777,
	}
	for name, mode := range wanted {
		about, err := os.Lstat(filepath.Join(top, "box", name))
		must(t, err)
		if about.Mode() != mode {
			t.Errorf("%s: %v, and not %v", name, about.Mode(), mode)
		}
	}
	text, err := root.Readlink("in/link")
	is(t, text, err, "/a/b/f")
}

// A mode with the bits of a kind makes nothing.
func TestModes(t *testing.T) {
	top, root := tree(t)
	before := seen(t, top)
	for _, mode := range []fs.FileMode{fs.ModeDir | 0o755, fs.ModeSymlink, fs.ModeIrregular} {
		fails(t, root.Mkdir("new", mode), fs.ErrInvalid)
		fails(t, root.MkdirAll("new", mode), fs.ErrInvalid)
		fails(t, root.WriteFile("new", nil, mode), fs.ErrInvalid)
		_, err := root.CreateUnnamed("a", mode)
		fails(t, err, fs.ErrInvalid)
		_, err = root.MkfileAll("new", mode, 0o755)
		fails(t, err, fs.ErrInvalid)
	}
	if now := seen(t, top); now != before {
		t.Errorf("refused modes have made %s", now)
	}
	file, err := root.OpenFile("in/f", os.O_RDONLY, fs.ModeDir)
	is(t, textOf(t, file, err), nil, "inside")
}

func TestUnnamedFiles(t *testing.T) {
	top, root := tree(t)
	old := syscall.Umask(0o022)
	defer syscall.Umask(old)
	file, err := root.CreateUnnamed("in", 0o666)
	must(t, err)
	defer file.Close()
	about, err := file.Stat()
	must(t, err)
	if about.Mode() != 0o644 {
		t.Errorf("a file without a name of mode %v", about.Mode())
	}
	_, err = file.WriteString("published")
	must(t, err)
	must(t, root.LinkFile(file.File, "in/whole"))
	text, err := os.ReadFile(filepath.Join(top, "box/a/b/whole"))
	is(t, string(text), err, "published")
	fails(t, root.LinkFile(file.File, "in/whole"), fs.ErrExist)
	fails(t, root.LinkFile(file.File, "up/whole"), fs.ErrNotExist)
}

func TestFlags(t *testing.T) {
	_, root := tree(t)
	_, err := root.With(Beneath).Open("in/f")
	fails(t, err, syscall.EXDEV)
	_, err = root.With(NoLinks).Resolve("in/f")
	fails(t, err, syscall.ELOOP)
	_, err = root.With(NoLinks | NoRetry).Create("abs")
	fails(t, err, syscall.ELOOP)
	fails(t, root.With(NoLinks).Mkdir("in/x", 0o755), syscall.ELOOP)
	fails(t, root.With(NoLinks).Rename("in/f", "g"), syscall.ELOOP)
	fails(t, root.With(Beneath).Link("in/f", "g"), syscall.EXDEV)
	_, err = root.With(Beneath).With(NoLinks).Stat("in/f")
	fails(t, err, syscall.ELOOP)
	sub, err := root.With(NoLinks).OpenRoot("/")
	must(t, err)
	defer sub.Close()
	_, err = sub.Stat("in/f")
	fails(t, err, syscall.ELOOP)
	for _, flags := range []Flags{0, NoRetry, Exact, NoXDev, NoXDev | Exact} {
		_, err = root.With(flags).Stat("in/f")
		must(t, err)
	}
	// There is a /proc, which is a mount of its own.
	whole, err := OpenRoot("/")
	must(t, err)
	defer whole.Close()
	for _, flags := range []Flags{NoXDev, NoXDev | Exact} {
		_, err = whole.With(flags).Open("proc/version")
		fails(t, err, syscall.EXDEV)
	}
	_, err = whole.Stat("proc/version")
	must(t, err)
}

// By single steps one that is at no certain place isn't found: the kernel writes the same behind the path of a removed
// one.
func TestExact(t *testing.T) {
	top, root := tree(t)
	must(t, os.WriteFile(filepath.Join(top, "box/a/b/f (deleted)"), nil, 0o644))
	_, err := root.Stat("in/f (deleted)")
	must(t, err)
	_, err = root.With(Exact | NoRetry).Stat("in/f (deleted)")
	fails(t, err, syscall.EAGAIN)
	handle, err := root.With(Exact).Resolve("in/f")
	sameAs(t, handle, err, filepath.Join(top, "box/a/b/f"))
}

// A call that doesn't take a flag refuses it, and so does each one that is none; a number isn't taken by its lower
// bits.
func TestNumbers(t *testing.T) {
	_, root := tree(t)
	const beyond, give, noFollow = 1 << 32, 256, 4
	handle, err := root.Resolve("in/f")
	must(t, err)
	defer handle.Close()
	for _, flags := range []Flags{beyond, beyond | Exact, 1 << 20, give, noFollow, Follow, Directory, -1} {
		_, err = root.With(flags).Resolve("in/f")
		fails(t, err, fs.ErrInvalid)
		fails(t, root.With(flags).Mkdir("new", 0o700), fs.ErrInvalid)
	}
	_, err = root.OpenFile("in/f", beyond, 0)
	fails(t, err, fs.ErrInvalid)
	_, err = root.OpenFile("new", beyond|os.O_CREATE, 0o600)
	fails(t, err, fs.ErrInvalid)
	_, err = handle.Reopen(beyond)
	fails(t, err, fs.ErrInvalid)
	fails(t, root.RenameWith("in/f", "new", beyond), fs.ErrInvalid)
	fails(t, handle.Setxattr("user.inroot", nil, beyond), fs.ErrInvalid)
	_, err = ProcOpen(ProcSelf-beyond, "comm", os.O_RDONLY)
	fails(t, err, fs.ErrInvalid)
}

func TestLinksThemselves(t *testing.T) {
	top, root := tree(t)
	about, err := root.Lstat("up")
	must(t, err)
	if about.Mode()&fs.ModeSymlink == 0 {
		t.Errorf("up is %v", about.Mode())
	}
	must(t, os.Symlink("b/f", filepath.Join(top, "box/a/to")))
	must(t, root.With(Follow).Link("a/to", "second"))
	about, err = root.Lstat("second")
	must(t, err)
	if !about.Mode().IsRegular() {
		t.Errorf("a second name of %v", about.Mode())
	}
	link, err := root.ResolveNoFollow("up")
	must(t, err)
	defer link.Close()
	_, err = link.Reopen(os.O_RDONLY)
	fails(t, err, syscall.ELOOP)
}

func TestLastError(t *testing.T) {
	_, root := tree(t)
	runtime.LockOSThread()
	defer runtime.UnlockOSThread()
	_, err := root.Open("in/none/x")
	fails(t, err, fs.ErrNotExist)
	cause, is := LastError()
	text := "can't look up \"none\": No such file or directory (ENOENT)"
	if wanted := (Cause{syscall.ENOENT, "Open", "none", text}); !is || cause != wanted {
		t.Errorf("%v, and not %v", cause, wanted)
	}
}

func TestRemoving(t *testing.T) {
	top, root := tree(t)
	must(t, os.Symlink("../../../outside", filepath.Join(top, "box/a/b/out")))
	var removed []int
	for _, name := range []string{"a", "a", "up", ""} {
		count, err := root.RemoveAllCount(name)
		must(t, err)
		removed = append(removed, count)
	}
	if !reflect.DeepEqual(removed, []int{4, 0, 1, 0}) {
		t.Errorf("removed %v", removed)
	}
	fails(t, root.Rmdir("abs"), syscall.ENOTDIR)
	fails(t, root.Unlink("/"), fs.ErrInvalid)
	must(t, root.Mkdir("d", 0o700))
	fails(t, root.Unlink("d"), syscall.EISDIR)
	must(t, root.Rmdir("d"))
	must(t, root.Unlink("abs"))
}

func TestRenaming(t *testing.T) {
	_, root := tree(t)
	must(t, root.Rename("in/f", "g"))
	fails(t, root.RenameWith("g", "in", RenameNoReplace), fs.ErrExist)
	must(t, root.RenameWith("g", "up", RenameExchange))
	text, err := root.Readlink("g")
	is(t, text, err, "../outside")
	fails(t, root.RenameWith("g", "up", RenameExchange|RenameNoReplace), fs.ErrInvalid)
}

func TestErrors(t *testing.T) {
	top, root := tree(t)
	_, err := OpenRoot(filepath.Join(top, "none"))
	fails(t, err, fs.ErrNotExist)
	_, err = OpenRoot(filepath.Join(top, "outside/secret"))
	fails(t, err, syscall.ENOTDIR)
	_, err = root.OpenRoot("in/f")
	fails(t, err, syscall.ENOTDIR)
	file, err := root.Open("in/f")
	must(t, err)
	defer file.Close()
	_, err = NewRoot(file.File).Stat(".")
	fails(t, err, syscall.ENOTDIR)
	// No file is an error, and no panic, as for the methods of os.File.
	for _, none := range []func() error{
		func() error { _, err := NewRoot(nil).Stat("."); return err },
		func() error { _, err := NewRoot(nil).Open("."); return err },
		func() error { _, err := root.Place(nil); return err },
		func() error { return root.LinkFile(nil, "x") },
		func() error { return (&Handle{}).Chmod(0) },
	} {
		fails(t, none(), fs.ErrInvalid)
	}
	// EINVAL can be found by each of its names.
	var number syscall.Errno
	_, err = root.Readlink("a")
	fails(t, err, fs.ErrInvalid)
	fails(t, err, syscall.EINVAL)
	if !errors.As(err, &number) || number != syscall.EINVAL || errors.Is(err, fs.ErrExist) {
		t.Errorf("%v isn't EINVAL", err)
	}
	version, err := os.ReadFile("../../VERSION")
	if err == nil && strings.TrimSpace(string(version)) != Version() {
		t.Errorf("the library is %s, and the sources are %s", Version(), version)
	}
}

func TestNoRaceLeadsOut(t *testing.T) {
	top, root := tree(t)
	must(t, os.Mkdir(filepath.Join(top, "box/swap"), 0o755))
	must(t, os.WriteFile(filepath.Join(top, "box/swap/secret"), []byte("inside"), 0o644))
	must(t, os.Symlink("../outside", filepath.Join(top, "box/other")))
	var ends atomic.Bool
	ended := make(chan error)
	go func() {
		for !ends.Load() {
			if err := root.RenameWith("swap", "other", RenameExchange); err != nil {
				ended <- err
				return
			}
		}
		ended <- nil
	}()
	found := 0
	for tries := 0; found < 500 && tries < 200000; tries++ {
		text, err := root.ReadFile("swap/secret")
		if err != nil {
			continue
		}
		if string(text) != "inside" {
			t.Fatalf("a race led to %q", text)
		}
		found++
	}
	ends.Store(true)
	must(t, <-ended)
	if found != 500 {
		t.Errorf("only %d calls succeeded", found)
	}
}

func TestDescriptors(t *testing.T) {
	_, root := tree(t)
	all := func() {
		handle, err := root.Resolve("in/f")
		must(t, err)
		file, err := handle.Reopen(os.O_RDONLY)
		must(t, err)
		made, err := root.MkdirAllHandle("in/x", 0o755)
		must(t, err)
		for _, open := range []io.Closer{handle, file, made} {
			must(t, open.Close())
		}
		must(t, root.MkdirAll("in/x", 0o755))
		must(t, root.Chmod("in/f", 0o644))
		_, err = fs.ReadDir(root.FS(), "a/b")
		must(t, err)
		_, err = root.Open("none/x")
		fails(t, err, fs.ErrNotExist)
		fails(t, root.With(256).Mkdir("new", 0o700), fs.ErrInvalid)
	}
	all()
	before, err := os.ReadDir("/proc/self/fd")
	must(t, err)
	for i := 0; i < 50; i++ {
		all()
	}
	after, err := os.ReadDir("/proc/self/fd")
	must(t, err)
	if len(after) != len(before) {
		t.Errorf("%d descriptors were open, and are %d", len(before), len(after))
	}
}
