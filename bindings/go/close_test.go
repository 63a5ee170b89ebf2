package inroot

import (
	"errors"
	"io/fs"
	"os"
	"path/filepath"
	"reflect"
	"runtime"
	"strings"
	"sync"
	"syscall"
	"testing"
	"time"
)

// isOpen says whether one of the process's descriptors is open on that directory.
func isOpen(t *testing.T, dir string) bool {
	t.Helper()
	links, err := os.ReadDir("/proc/self/fd")
	must(t, err)
	for _, link := range links {
		if text, err := os.Readlink("/proc/self/fd/" + link.Name()); err == nil && text == dir {
			return true
		}
	}
	return false
}

// arguments gives some that a method takes.
func arguments(t *testing.T, method reflect.Type, file *os.File) []reflect.Value {
	given := []reflect.Value{}
	for i := 0; i < method.NumIn(); i++ {
		value := reflect.New(method.In(i)).Elem()
		switch {
		case value.Kind() == reflect.String:
			value.SetString("a")
		case value.Type() == reflect.TypeOf(file):
			value.Set(reflect.ValueOf(file))
		}
		given = append(given, value)
	}
	return given
}

// failures gives what each method of a value gives as its error, by the method's name.
func failures(t *testing.T, of interface{}, file *os.File, except ...string) map[string]error {
	all := map[string]error{}
	for i := 0; i < reflect.TypeOf(of).NumMethod(); i++ {
		method := reflect.ValueOf(of).Method(i)
		results := method.Call(arguments(t, method.Type(), file))
		err, _ := results[len(results)-1].Interface().(error)
		all[reflect.TypeOf(of).Method(i).Name] = err
	}
	for _, name := range except {
		if all[name] != nil {
			t.Errorf("%s gives %v", name, all[name])
		}
		delete(all, name)
	}
	return all
}

func TestEachMethodAfterClose(t *testing.T) {
	top, root := tree(t)
	before := seen(t, top)
	file, err := root.Open("a/b/f")
	must(t, err)
	defer file.Close()
	handle, err := root.Resolve("a")
	must(t, err)
	view := root.With(NoLinks)
	must(t, root.Close())
	must(t, root.Close())
	must(t, view.Close())
	for _, closed := range []*Root{root, view} {
		if closed.Name() != filepath.Join(top, "box") {
			t.Errorf("the name is %q", closed.Name())
		}
		methods := failures(t, closed, file.File, "Close", "FS", "Name", "With")
		if len(methods) < 35 {
			t.Errorf("only the methods %v were called", methods)
		}
		for name, err := range methods {
			if !errors.Is(err, fs.ErrClosed) {
				t.Errorf("%s after Close: %v", name, err)
			}
		}
	}
	must(t, handle.Close())
	for _, name := range strings.Fields("Chmod Chown Chtimes Getxattr Listxattr Removexattr Reopen Setxattr") {
		method := reflect.ValueOf(handle).MethodByName(name)
		results := method.Call(arguments(t, method.Type(), file.File))
		if err, _ := results[len(results)-1].Interface().(error); !errors.Is(err, fs.ErrClosed) {
			t.Errorf("%s of a closed handle: %v", name, err)
		}
	}
	fails(t, NewRoot(file.File).LinkFile(handle.File, "x"), fs.ErrClosed)
	if now := seen(t, top); now != before {
		t.Errorf("calls after Close have made %s", now)
	}
}

// Meanwhile descriptors of another directory are opened: no call acts on that by the number of the root's.
func TestCloseBesideCalls(t *testing.T) {
	top, _ := tree(t)
	for round := 0; round < 25; round++ {
		root, err := OpenRoot(filepath.Join(top, "box"))
		must(t, err)
		var ended sync.WaitGroup
		calls := []func() error{
			func() error { _, err := root.Stat("a/b/f"); return err },
			func() error { _, err := root.ReadFile("in/f"); return err },
			func() error { return root.With(Exact).Chmod("in/f", 0o644) },
			func() error { _, err := fs.ReadDir(root.FS(), "a/b"); return err },
			func() error { return root.MkdirAll("in/made/all", 0o755) },
		}
		for _, call := range calls {
			ended.Add(1)
			go func(call func() error) {
				defer ended.Done()
				err := call()
				for err == nil {
					err = call()
				}
				fails(t, err, fs.ErrClosed)
			}(call)
		}
		time.Sleep(time.Duration(round) * 100 * time.Microsecond)
		must(t, root.Close())
		for i := 0; i < 20; i++ {
			other, err := OpenRoot(filepath.Join(top, "outside"))
			must(t, err)
			defer other.Close()
		}
		ended.Wait()
	}
}

// A call that waits for the other end of a FIFO goes on after Close, and has the descriptor until it ends.
func TestCloseWaitsForNoCall(t *testing.T) {
	top, kept := tree(t)
	box := filepath.Join(top, "box")
	must(t, kept.Close())
	must(t, syscall.Mkfifo(filepath.Join(box, "fifo"), 0o600))
	for delay := time.Millisecond; ; delay *= 2 {
		root, err := OpenRoot(box)
		must(t, err)
		opened := make(chan error)
		go func() {
			file, err := root.Open("fifo")
			if err == nil {
				err = file.Close()
			}
			opened <- err
		}()
		time.Sleep(delay)
		must(t, root.Close())
		stays := isOpen(t, box)
		_, err = root.Open("fifo")
		fails(t, err, fs.ErrClosed)
		writer, err := os.OpenFile(filepath.Join(box, "fifo"), os.O_WRONLY|syscall.O_NONBLOCK, 0)
		if err == nil {
			must(t, <-opened)
			must(t, writer.Close())
			if !stays || isOpen(t, box) {
				t.Errorf("open after Close, while a call is made: %v, and then: %v", stays, isOpen(t, box))
			}
			return
		}
		// The call had not begun.
		fails(t, err, syscall.ENXIO)
		fails(t, <-opened, fs.ErrClosed)
	}
}

// A read of a FIFO has a deadline, and ends where the file is closed.
func TestFifos(t *testing.T) {
	_, root := tree(t)
	must(t, root.Mknod("fifo", syscall.S_IFIFO|0o600, 0))
	handle, err := root.Resolve("fifo")
	must(t, err)
	defer handle.Close()
	for _, open := range []func() (*File, error){
		func() (*File, error) { return root.OpenFile("fifo", os.O_RDWR, 0) },
		func() (*File, error) { return handle.Reopen(os.O_RDWR) },
	} {
		file, err := open()
		must(t, err)
		must(t, file.SetReadDeadline(time.Now().Add(10*time.Millisecond)))
		_, err = file.Read(make([]byte, 1))
		fails(t, err, os.ErrDeadlineExceeded)
		must(t, file.SetReadDeadline(time.Time{}))
		ended := make(chan error)
		go func() {
			_, err := file.Read(make([]byte, 1))
			ended <- err
		}()
		time.Sleep(10 * time.Millisecond)
		must(t, file.Close())
		fails(t, <-ended, fs.ErrClosed)
	}
}

func TestForgottenRootsAreClosed(t *testing.T) {
	top, kept := tree(t)
	box := filepath.Join(top, "box")
	must(t, kept.Close())
	func() {
		root, err := OpenRoot(box)
		must(t, err)
		_, err = root.With(NoLinks).Stat("a")
		must(t, err)
	}()
	for tries := 0; isOpen(t, box); tries++ {
		if tries == 500 {
			t.Fatal("a root that nothing refers to stays open")
		}
		runtime.GC()
		time.Sleep(time.Millisecond)
	}
}
