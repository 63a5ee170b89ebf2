package inroot

import (
	"io/fs"
	"os"
	"os/exec"
	"strconv"
	"syscall"
	"testing"
)

// In a process of its own, since it comes before the first other function there.
func TestProcThatIsHandedIn(t *testing.T) {
	if os.Getenv("INROOT_HANDS_IN") == "" {
		child := exec.Command(os.Args[0], "-test.run=^TestProcThatIsHandedIn$")
		child.Env = append(os.Environ(), "INROOT_HANDS_IN=1")
		if told, err := child.CombinedOutput(); err != nil {
			t.Errorf("%v: %s", err, told)
		}
		return
	}
	_, root := tree(t)
	fails(t, UseProc(root.dir), syscall.EINVAL)
	proc, err := os.Open("/proc")
	must(t, err)
	must(t, UseProc(proc))
	must(t, proc.Close())
	fails(t, UseProc(proc), fs.ErrClosed)
	fails(t, UsePrivateProc(), syscall.EBUSY)
	found, err := root.Resolve("in/f")
	must(t, err)
	file, err := found.Reopen(os.O_RDONLY)
	is(t, textOf(t, file, err), nil, "inside")
	must(t, found.Close())
}

func TestFilesOfProc(t *testing.T) {
	_, root := tree(t)
	file, err := ProcOpen(ProcSelf, "comm", os.O_RDONLY)
	must(t, err)
	is(t, file.Name(), nil, "/proc/self/comm")
	own, err := os.ReadFile("/proc/self/comm")
	must(t, err)
	is(t, textOf(t, file, nil), nil, string(own))
	link := "fd/" + strconv.Itoa(int(root.dir.Fd()))
	for _, base := range []int{ProcSelf, os.Getpid()} {
		text, err := ProcReadlink(base, link)
		is(t, text, err, root.Name())
		file, err = ProcOpen(base, link, os.O_RDONLY|syscall.O_DIRECTORY)
		sameAs(t, &Handle{file.File}, err, root.Name())
	}
	_, err = ProcOpen(ProcRoot, "../etc/passwd", os.O_RDONLY)
	fails(t, err, syscall.EXDEV)
	_, err = ProcOpen(ProcThreadSelf, "root/etc", os.O_RDONLY)
	fails(t, err, syscall.ELOOP)
	_, err = ProcReadlink(ProcSelf, "comm")
	fails(t, err, syscall.EINVAL)
}
