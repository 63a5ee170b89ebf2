# shellcheck shell=bash disable=SC2154
# The library as arm64: cross built by CC alone, installed below a new directory, and used by an emulator of the processor
# (qemu-user) over this machine's kernel. checks/library reads this file. checks/arm64 boots a kernel of arm64.

arm=aarch64-linux-gnu
arm_prefix=$work/arm-prefix
arm_library=${INROOT_ARM64_LIBRARY-}
arm_archive=${arm_library:-dist/aarch64-linux/libinroot_calls.a}
emulator=$(command -v qemu-aarch64 || command -v qemu-aarch64-static)

# What the emulator doesn't do of what tests need, a word each. Some say that they do it.
cat >"$work/lacking.c" <<'END'
#define _GNU_SOURCE
#include <fcntl.h>
#include <stdio.h>
#include <sys/syscall.h>
#include <sys/wait.h>
#include <unistd.h>

int main(void)
{
    unsigned long long how[3] = {O_PATH, 0, 0};
    volatile int shared = 0;
    pid_t child;
    int status;
    if (syscall(437, AT_FDCWD, "/", how, sizeof how) < 0)
        puts("openat2(2)");
    child = vfork();
    if (child == 0) {
        shared = 1;
        _exit(0);
    }
    waitpid(child, &status, 0);
    if (!shared)
        puts("vfork(2)");
    return 0;
}
END

# arm_runs NAME COMMAND..: the emulator runs it, over the installed library.
arm_runs() {
    local name=$1
    shift
    has "as arm64: $name" env -u LD_LIBRARY_PATH timeout 300 \
        "$emulator" -L "$arm_root" -E LD_LIBRARY_PATH="$arm_prefix/lib" "$@"
}

arm_install() {
    local given_here said
    has 'make install as arm64' make -s -C host CC=$arm-gcc OUT="$work/arm" PREFIX="$arm_prefix" \
        ${arm_library:+LIBRARY="$arm_library"} CFLAGS='-O2 -Wall -Wextra -Wpedantic -Wshadow -Wconversion -Werror' install
    [ "$failed" -eq "$failed_before" ] || return
    given_here=$($arm-nm -D --defined-only "$arm_prefix/lib/$soname" | awk '$2 == "T" { print $3 }' | LC_ALL=C sort)
    [ "$(readelf -h "$arm_prefix/lib/$soname" | sed -n 's/^ *Machine: *//p')" = AArch64 ] && [ "$given_here" = "$given" ]
    verdict $? "the shared library for arm64 is another one, or gives other calls: $given_here"
    make_box "$work/arm-box"
    read -ra arm_options < <(PKG_CONFIG_PATH=$arm_prefix/lib/pkgconfig pkg-config --cflags --libs inroot)
    has 'C11 as arm64 is built' $arm-gcc -std=c11 -D_GNU_SOURCE -Wall -Wextra -Werror -o "$work/arm-used" "$work/use.c" \
        "${arm_options[@]}"
    has 'what the emulator lacks' $arm-gcc -std=gnu11 -static -o "$work/lacking.arm" "$work/lacking.c"
    lacking=$("$emulator" "$work/lacking.arm" 2>/dev/null | paste -sd ' ')
    said=$("$emulator" -L "$arm_root" "$arm_prefix/bin/inroot-fs" "$work/arm-box" cat in/f 2>&1)
    case $lacking in
    *openat2*)
        [[ $said == *ENOSYS* ]]
        verdict $? "inroot-fs as arm64, where the emulator has no openat2(2), says '$said'"
        skip 'C11 as arm64' 'the emulator has no openat2(2)'
        ;;
    *)
        arm_runs 'C11' "$work/arm-used" "$work/arm-box"
        [ "$said" = inside ]
        verdict $? "inroot-fs as arm64 says '$said'"
        ;;
    esac
}

# emulated EMULATOR NAME ARGUMENT: the status of such a test, which is built already, in a directory of its own.
emulated() {
    local status at
    # Where directories are made and removed in memory, this takes less time than on a disk.
    at=$(mktemp -d -p /dev/shm 2>/dev/null) || at=$(mktemp -d) || return
    chmod 755 "$at"
    # shellcheck disable=SC2086
    timeout 200 "$1" "$work/$2-test" "$at" $3 >"$work/printed" 2>&1
    status=$?
    chmod -R u+rwx "$at" && rm -rf "$at"
    return $status
}

# fails_as_x86 NAME ARGUMENT: whether the test fails by the emulator for x86-64, too. Then the emulator is at fault, since
# checks/host runs the test without one.
fails_as_x86() {
    local printed status
    command -v qemu-x86_64 >/dev/null || return
    printed=$(cat "$work/printed")
    host/tests/build "$1" "$prefix/lib/libinroot.a" "$work/x86-test" -static 2>/dev/null && ! emulated qemu-x86_64 x86 "$2"
    status=$?
    echo "$printed" >"$work/printed"
    return $status
}

# arm_test NAME ARGUMENT
arm_test() {
    local status
    has "host/tests/$1.c as arm64 is built" env CC=$arm-gcc host/tests/build "$1" "$work/arm/libinroot.a" "$work/arm-test" -static
    emulated "$emulator" arm "$2"
    status=$?
    if [ $status -eq 77 ] || [ $status -eq 78 ]; then
        skip "host/tests/$1.c as arm64" "it takes more than this emulator has, which lacks $lacking"
    elif [ $status -ne 0 ] && fails_as_x86 "$1" "$2"; then
        skip "host/tests/$1.c as arm64" "by this emulator it fails as x86-64, too: it lacks $lacking"
    else
        verdict $status "host/tests/$1.c as arm64: status $status: $(tail -n 20 "$work/printed")"
    fi
}

# Of the programs of host/tests whose verdict doesn't hang on time, those that tell most of the machine: numbers of calls, flags
# and errors, layouts, the stack. In the deep part all of them.
arm_programs() {
    local name argument
    while read -r name argument; do
        case $name in
        errors | calls | own_names | short | memory | stack | proc | ends) ;;
        *) [ -n "${INROOT_DEEP-}" ] || continue ;;
        esac
        # A tree takes the emulator longer.
        [ "$name" != tree ] || argument=500
        echo "$name $argument"
    done < <(host/tests/build --fixed)
}

# Such programs, and the stored cases of the library's turns without the driver.
arm_tests() {
    local name argument
    has 'fuzz_exchange as arm64 is built' $arm-gcc -std=gnu11 -Wall -Wextra -Werror -O2 -static -o "$work/arm-test" \
        host/tests/fuzz_exchange.c host/tests/fuzz_main.c host/heap.c "$arm_archive"
    timeout 200 "$emulator" "$work/arm-test" host/tests/corpus/fuzz_exchange >"$work/printed" 2>&1
    verdict $? "host/tests/fuzz_exchange.c as arm64: $(tail -n 20 "$work/printed")"
    if [[ $lacking == *openat2* ]]; then
        skip 'the other programs of host/tests as arm64' 'the emulator has no openat2(2)'
        return
    fi
    while read -r name argument; do
        arm_test "$name" "$argument"
    done < <(arm_programs)
}

# The numbers of the flags in Rust are those of the machine's headers: the file is compiled as if for arm64.
arm_flags() {
    sed 's/not(target_arch = "aarch64")/any()/; s/target_arch = "aarch64"/all()/' bindings/rust/src/flags.rs >"$work/flags.rs"
    local names name
    names=$(sed -n 's/^    pub\((crate)\)\{0,1\} const \(O_[A-Z]*\): OpenFlags.*/\2/p' "$work/flags.rs")
    {
        echo '#[allow(dead_code)] mod flags; fn main() {'
        for name in $names; do echo "println!(\"$name {}\", flags::OpenFlags::$name.bits());"; done
        echo '}'
    } >"$work/main.rs"
    {
        printf '#define _GNU_SOURCE\n#include <fcntl.h>\n#include <stdio.h>\nint main(void)\n{\n'
        for name in $names; do printf 'printf("%s %%d\\n", %s);\n' "$name" "$name"; done
        printf 'return 0;\n}\n'
    } >"$work/numbers.c"
    has 'flags.rs as arm64 is built' rustc --edition 2021 -o "$work/numbers.rust" "$work/main.rs"
    has 'the numbers of flags as arm64 are built' $arm-gcc -static -o "$work/numbers.arm" "$work/numbers.c"
    [ "$(wc -w <<<"$names")" -ge 15 ] && [ "$("$work/numbers.rust")" = "$("$emulator" "$work/numbers.arm")" ]
    verdict $? "the flags in Rust are not those of arm64: $(diff <("$work/numbers.rust") <("$emulator" "$work/numbers.arm"))"
}

arm_bindings() {
    local tests
    lacks_rust 'the flags of bindings/rust as arm64' || arm_flags
    ! lacks_go 'bindings/go as arm64' || return
    # The compiler takes long for Go's own packages.
    if [ -n "${INROOT_DEEP-}" ] && [[ $lacking == *openat2* ]]; then
        skip 'the tests of bindings/go as arm64' 'the emulator has no openat2(2)'
    elif [ -n "${INROOT_DEEP-}" ]; then
        tests=$(sed -n 's/^func \(Test[A-Za-z]*\)(.*/\1/p' bindings/go/*_test.go | grep -vx TestFlags | paste -sd '|')
        # Static, since for a loader of its own the emulator puts another directory in the place of the root.
        has 'the tests of bindings/go as arm64' env -C bindings/go -u LD_LIBRARY_PATH GOARCH=arm64 CGO_ENABLED=1 CC=$arm-gcc \
            GOFLAGS=-mod=readonly GOWORK=off GOPROXY=off GOTOOLCHAIN=local GOCACHE="$work/gocache" \
            PKG_CONFIG_PATH="$arm_prefix/lib/pkgconfig" \
            go test -count=1 -run "^($tests)\$" -ldflags '-linkmode external -extldflags -static' -exec "$emulator" ./...
        skip 'TestFlags of bindings/go as arm64' 'statx(2) of qemu-user says that it names the mount, and does not'
    fi
    ! env -C bindings/go GOARCH=riscv64 CGO_ENABLED=0 GOFLAGS=-mod=readonly GOCACHE="$work/gocache" GOTOOLCHAIN=local \
        go build . 2>"$work/err" && grep -q libinroot_is_there_for_linux_on_amd64_and_arm64_alone "$work/err"
    verdict $? "Go as riscv64 is not refused in plain words: $(cat "$work/err")"
}

failed_before=$failed
if lacks $arm-gcc 'the library as arm64'; then
    :
elif [ -z "$emulator" ]; then
    skip 'the library as arm64' 'there is no qemu-aarch64 here'
elif ! compiles $arm-gcc -static; then
    skip 'the library as arm64' "there is no static C library for $arm-gcc here"
else
    arm_root=$(readlink -f -- "$(dirname -- "$($arm-gcc -print-file-name=libc.so)")/..")
    arm_install
    [ "$failed" -gt "$failed_before" ] || arm_tests
    [ "$failed" -gt "$failed_before" ] || arm_bindings
fi
