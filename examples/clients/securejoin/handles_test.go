package securejoin

import (
	"errors"
	"os"
	"path/filepath"
	"syscall"
	"testing"
)

// tree makes a root beside a directory outside of it, to which links below the root lead by their texts.
func tree(t *testing.T) (root, outside string) {
	t.Helper()
	top := t.TempDir()
	root, outside = filepath.Join(top, "root"), filepath.Join(top, "outside")
	for _, made := range []string{root, outside} {
		if err := os.Mkdir(made, 0o755); err != nil {
			t.Fatal(err)
		}
	}
	for link, text := range map[string]string{"absolute": outside, "relative": "../../../../../.." + outside} {
		if err := os.Symlink(text, filepath.Join(root, link)); err != nil {
			t.Fatal(err)
		}
	}
	return root, outside
}

func isEmpty(t *testing.T, directory string) {
	t.Helper()
	entries, err := os.ReadDir(directory)
	if err != nil || len(entries) != 0 {
		t.Errorf("%s: wanted no entry and no error, got %v, %v", directory, entries, err)
	}
}

func TestHandlesStayBelow(t *testing.T) {
	root, outside := tree(t)
	for _, path := range []string{"absolute", "relative", "relative/..", outside} {
		if handle, err := OpenInRoot(root, path); !errors.Is(err, syscall.ENOENT) {
			t.Errorf("OpenInRoot of %s: wanted ENOENT, got %v, %v", path, handle, err)
		}
	}
	if err := MkdirAll(root, outside+"/made", 0o755); err != nil {
		t.Errorf("MkdirAll: wanted no error, got %v", err)
	}
	if status, err := os.Stat(filepath.Join(root, outside, "made")); err != nil || !status.IsDir() {
		t.Errorf("MkdirAll: wanted a directory below the root, got %v, %v", status, err)
	}
	isEmpty(t, outside)
}

func TestMadeHandleIsRead(t *testing.T) {
	root, _ := tree(t)
	directory, err := os.Open(root)
	if err != nil {
		t.Fatal(err)
	}
	defer directory.Close()
	made, err := MkdirAllHandle(directory, "a/b", 0o700)
	if err != nil {
		t.Fatalf("MkdirAllHandle: wanted no error, got %v", err)
	}
	defer made.Close()
	if names, err := made.Readdirnames(-1); err != nil || len(names) != 0 {
		t.Errorf("wanted a directory that is read and empty, got %v, %v", names, err)
	}
	again, err := OpenatInRoot(directory, "a/b")
	if err != nil {
		t.Fatalf("OpenatInRoot: wanted no error, got %v", err)
	}
	defer again.Close()
	reopened, err := Reopen(again, syscall.O_RDONLY|syscall.O_DIRECTORY)
	if err != nil {
		t.Fatalf("Reopen: wanted no error, got %v", err)
	}
	defer reopened.Close()
	one, err1 := made.Stat()
	other, err2 := reopened.Stat()
	if err1 != nil || err2 != nil || !os.SameFile(one, other) {
		t.Errorf("wanted one directory, got %v, %v and %v, %v", one, err1, other, err2)
	}
}

func TestInvalidMode(t *testing.T) {
	root, _ := tree(t)
	if err := MkdirAll(root, "a", os.ModeSetuid|0o755); !errors.Is(err, errInvalidMode) {
		t.Errorf("wanted %v, got %v", errInvalidMode, err)
	}
	if _, err := os.Lstat(filepath.Join(root, "a")); !os.IsNotExist(err) {
		t.Errorf("wanted nothing made, got %v", err)
	}
}
