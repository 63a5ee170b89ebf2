package inroot

import (
	"errors"
	"io"
	"io/fs"
	"os"
	"path/filepath"
	"reflect"
	"sync/atomic"
	"syscall"
	"testing"
)

// inodes gives the inode of each entry by its name.
func inodes(infos []fs.FileInfo) map[string]uint64 {
	all := map[string]uint64{}
	for _, info := range infos {
		all[info.Name()] = info.Sys().(*syscall.Stat_t).Ino
	}
	return all
}

// readAll reads until the end, count entries at a time, or all at once where that is -1.
func readAll[Entry any](t *testing.T, count int, read func(count int) ([]Entry, error)) (all []Entry) {
	t.Helper()
	for {
		some, err := read(count)
		all = append(all, some...)
		if count < 0 || err != io.EOF {
			must(t, err)
		}
		if count < 0 || err == io.EOF {
			return all
		}
	}
}

// infosOf gives the status of entries, and says where one has another kind than its status.
func infosOf(t *testing.T, entries []fs.DirEntry) (infos []fs.FileInfo) {
	for _, entry := range entries {
		info, err := entry.Info()
		must(t, err)
		if info.Name() != entry.Name() || info.Mode().Type() != entry.Type() || info.IsDir() != entry.IsDir() {
			t.Errorf("%v is %v", entry, info)
		}
		infos = append(infos, info)
	}
	return infos
}

// tellsOf says where one of the ways to read a directory, which is opened for each, tells of another than dir.
func tellsOf(t *testing.T, what, dir string, open func() (*File, error)) {
	t.Helper()
	entries, err := os.ReadDir(dir)
	must(t, err)
	wanted := inodes(infosOf(t, entries))
	for _, count := range []int{-1, 1, 3} {
		file, err := open()
		must(t, err)
		infos := readAll(t, count, file.Readdir)
		must(t, file.Close())
		file, err = open()
		must(t, err)
		entries := readAll(t, count, file.ReadDir)
		must(t, file.Close())
		for _, got := range []map[string]uint64{inodes(infos), inodes(infosOf(t, entries))} {
			if !reflect.DeepEqual(got, wanted) {
				t.Errorf("%s, %d at a time: %v, and not %v", what, count, got, wanted)
			}
		}
	}
}

// What an opened directory tells is of its own entries, and not of those that the host has by its name.
func TestOpenedDirectories(t *testing.T) {
	top, root := tree(t)
	box, below := filepath.Join(top, "box"), filepath.Join(top, "box", top, "outside")
	must(t, os.MkdirAll(filepath.Join(below, "secret"), 0o755))
	must(t, os.Symlink("../outside", filepath.Join(below, "link")))
	tellsOf(t, "Open", below, func() (*File, error) { return root.Open("abs") })
	tellsOf(t, "OpenInRoot", below, func() (*File, error) { return OpenInRoot(box, "abs") })
	tellsOf(t, "Reopen", below, func() (*File, error) {
		handle, err := root.Resolve("abs")
		must(t, err)
		defer handle.Close()
		return handle.Reopen(os.O_RDONLY)
	})
	tellsOf(t, "FS", below, func() (*File, error) {
		file, err := root.FS().Open("abs")
		return file.(*File), err
	})
	entries, err := fs.ReadDir(root.FS(), "abs")
	must(t, err)
	if got := inodes(infosOf(t, entries)); len(got) != 2 || entries[0].Name() != "link" || !entries[1].IsDir() {
		t.Errorf("abs has %v", entries)
	}
}

// So it is where the name of the root leads elsewhere, or where there is none.
func TestDirectoriesOfMovedRoots(t *testing.T) {
	top, root := tree(t)
	box := filepath.Join(top, "box")
	must(t, os.MkdirAll(filepath.Join(top, "elsewhere/box/a/b/f"), 0o755))
	before, err := os.Getwd()
	must(t, err)
	defer os.Chdir(before)
	must(t, os.Chdir(top))
	relative, err := OpenRoot("box")
	must(t, err)
	defer relative.Close()
	must(t, os.Chdir("elsewhere"))
	tellsOf(t, "a relative root", filepath.Join(box, "a/b"), func() (*File, error) { return relative.Open("a/b") })

	must(t, os.Mkdir(filepath.Join(box, "etc"), 0o755))
	fd, err := syscall.Dup(int(root.dir.Fd()))
	must(t, err)
	nameless := NewRoot(os.NewFile(uintptr(fd), ""))
	defer nameless.Close()
	tellsOf(t, "a root without a name", box, func() (*File, error) { return nameless.Open("/") })
}

// So it is where the directory is moved behind its back.
func TestMovedDirectories(t *testing.T) {
	top, root := tree(t)
	first, then := filepath.Join(top, "box/a/b"), filepath.Join(top, "box/c")
	must(t, os.Mkdir(filepath.Join(first, "secret"), 0o755))
	must(t, os.Rename(first, then))
	must(t, os.Symlink("../../outside", first))
	tellsOf(t, "a moved directory", then, func() (*File, error) {
		must(t, os.Remove(first))
		must(t, os.Rename(then, first))
		file, err := root.Open("a/b")
		must(t, err)
		must(t, os.Rename(first, then))
		must(t, os.Symlink("../../outside", first))
		return file, nil
	})
}

// An entry that is removed between its name and its status is left out, and no end is told before the end.
func TestReadingBesideRemovals(t *testing.T) {
	_, root := tree(t)
	must(t, root.Mkdir("many", 0o755))
	var ends atomic.Bool
	ended := make(chan error)
	go func() {
		var err error
		for i := 0; err == nil && !ends.Load(); i++ {
			name := "many/" + string(rune('a'+i%26))
			if err = root.Mkdir(name, 0o755); err == nil {
				err = root.Remove(name)
			}
		}
		ended <- err
	}()
	must(t, root.WriteFile("many/stays", nil, 0o644))
	for round := 0; round < 200; round++ {
		for _, count := range []int{-1, 1} {
			file, err := root.Open("many")
			must(t, err)
			if got := inodes(readAll(t, count, file.Readdir)); got["stays"] == 0 {
				t.Errorf("%v, and not the entry that stays", got)
			}
			must(t, file.Close())
		}
	}
	ends.Store(true)
	must(t, <-ended)
}

func TestReadingWhatIsNoDirectory(t *testing.T) {
	_, root := tree(t)
	file, err := root.Open("in/f")
	must(t, err)
	_, err = file.ReadDir(-1)
	fails(t, err, syscall.ENOTDIR)
	_, err = file.Readdir(1)
	fails(t, err, syscall.ENOTDIR)
	must(t, file.Close())
	_, err = file.ReadDir(-1)
	var told *fs.PathError
	if !errors.As(err, &told) || told.Path != file.Name() {
		t.Errorf("%v doesn't tell the name", err)
	}
}
