package inroot

// #include <inroot.h>
import "C"

import "syscall"

// Flags change what calls do: [Root.With].
type Flags int

const (
	// Beneath refuses what would lead out of the root, with EXDEV: also an absolute name, and an absolute link.
	Beneath Flags = C.INROOT_BENEATH
	// NoLinks refuses every symbolic link on the way, with ELOOP.
	NoLinks Flags = C.INROOT_NO_LINKS
	// NoXDev refuses to leave the mount that the root is on, with EXDEV.
	NoXDev Flags = C.INROOT_NO_XDEV
	// NoRetry makes one try, where others are in the way: then the error is EAGAIN.
	NoRetry Flags = C.INROOT_NO_RETRY
	// Exact walks by single steps, and asks at the end at which names the object stands, all at one moment.
	Exact Flags = C.INROOT_EXACT
	// Follow is of Link, MkdirAll, MkfileAll and those of them that return a Handle. Link gives a second name to what
	// the link at the end of oldname leads to. The others also make what a link leads to, where that is missing,
	// below the root.
	Follow Flags = C.INROOT_FOLLOW
	// Directory is of ResolveParent: the name may end in a slash, which isn't part of its last name.
	Directory Flags = C.INROOT_DIRECTORY
)

// with gives the flags of a call as the library takes them: those of the root, and one that the method has.
func (r *Root) with(own C.int) C.int {
	if r.flags&^(Beneath|NoLinks|NoXDev|NoRetry|Exact|Follow|Directory) != 0 {
		return -1
	}
	return C.int(r.flags) | own
}

// A Cause says why a call failed.
type Cause struct {
	Err  syscall.Errno
	Step string // the last step that the call made, as Open; empty where it failed before the first
	Name string // the name that the step was about, or empty
	Text string // all of it in one sentence, in one line
}

// LastError returns why the last call of this thread failed, and whether one has. A goroutine may go on in another
// thread: one that asks calls runtime.LockOSThread before the call that may fail. After a call that succeeded the
// answer says nothing of that call.
func LastError() (Cause, bool) {
	var told C.struct_inroot_error
	if C.inroot_last_error(&told) != 0 {
		return Cause{}, false
	}
	var text [2048]C.char
	C.inroot_last_error_text(&text[0], C.size_t(len(text)))
	return Cause{syscall.Errno(told.error), C.GoString(told.step), C.GoString(&told.name[0]), C.GoString(&text[0])}, true
}
