# shellcheck shell=bash disable=SC2154
# The examples, and an archive of attacks that they unpack. checks/library reads this file.

unpackers=()
for name in unpack mount-target; do
    sources=examples/runtime/$name.c
    [ "$name" = unpack ] && sources="$sources examples/runtime/tar.c"
    # shellcheck disable=SC2086
    has "examples/runtime/$name.c" cc -std=gnu11 -O1 -Wall -Wextra -Wpedantic -Wshadow -Wconversion -Werror \
        -o "$work/$name" $sources "${flags[@]}"
done
unpackers=("$work/unpack")
[ -z "$has_go" ] || unpackers+=("$work/unpack-go")
[ ! -x "$work/unpack-go-static" ] || unpackers+=("$work/unpack-go-static")
has 'the archive of attacks' bash -c "examples/runtime/make-attacks '$work/outside' >'$work/attacks.tar'"
listing() {
    (cd "$1" && find . -printf '%p %y %m %l\n' | LC_ALL=C sort)
}
first=
for unpack in "${unpackers[@]}"; do
    name=${unpack##*/}
    mkdir "$work/in-$name"
    (umask 022 && "$unpack" "$work/in-$name" <"$work/attacks.tar" 2>"$work/err")
    status=$?
    [ "$status" -eq 1 ] && grep -q hard "$work/err"
    verdict $? "$name of the attacks: status $status, $(cat "$work/err")"
    [ "$(outside)" = "$before" ]
    verdict $? "$name of the attacks changed what is outside: $(diff <(echo "$before") <(outside))"
    at=$work/in-$name
    [ "$(cat "$at/ok/second" "$at/ok/last" "$at/escaped" "$at/file-link" "$at$work/outside/by-link")" = \
        'insideafter all attacksby dotsthrough a link to a filethrough an absolute link' ] &&
        [ -p "$at/ok/fifo" ] && [ ! -e "$at/hard-out" ] && [ ! -e "$at/smuggled" ] &&
        grep -q smuggled "$at/unknown" && grep -q 'type is unknown' "$work/err"
    verdict $? "$name made something else: $(listing "$at")"
    [ -z "$first" ] || [ "$(listing "$at")" = "$(listing "$first")" ]
    verdict $? "$name made other entries than ${first##*/}: $(diff <(listing "$at") <(listing "$first"))"
    first=$at
done

# An entry that is to replace a directory empties nothing that is mounted there; and no byte of a name comes to a terminal.
if unshare -rm true 2>/dev/null && mkdir "$work/one" && echo new >"$work/one/m" && mkdir "$work/one/odd" &&
    mkfifo "$work/one/odd/"$'n\e[2J\x9bm' && tar --format=pax -C "$work/one" -cf "$work/one.tar" m odd; then
    for unpack in "${unpackers[@]}"; do
        name=${unpack##*/}
        mkdir -p "$work/over-$name/m" "$work/over-$name/odd/"$'n\e[2J\x9bm/m'
        unshare -rm bash -c "mount --bind '$work/outside' '$work/over-$name/m' &&
            mount --bind '$work/outside' '$work/over-$name/odd/'*/m && '$unpack' '$work/over-$name'" <"$work/one.tar" 2>"$work/err"
        [ $? -eq 1 ] && [ "$(outside)" = "$before" ] && ! LC_ALL=C grep -q $'[\e\x9b]' "$work/err"
        verdict $? "$name over what is mounted: $(cat -v "$work/err"), $(diff <(echo "$before") <(outside))"
    done
else
    skip 'what is mounted where an archive has an entry' 'no right to unshare, or no tar that writes pax archives'
fi

# A tree of each kind is unpacked as tar(1) does: kind, mode, owner, times, links and contents.
grown=$work/grown
mkdir -p "$grown/tree/deep/er" "$grown/tree/shut" && (
    cd "$grown/tree" || exit
    echo file >file && echo other >deep/er/other && head -c 200000 /dev/urandom >deep/large && : >empty
    ln file deep/second && ln -s ../file deep/link && ln -s /nowhere gone && mkfifo -m 622 fifo
    chmod 4751 deep/large && chmod 444 deep/er/other && chmod 1777 deep && echo kept >shut/kept
    [ "$(id -u)" -ne 0 ] || { mknod -m 666 null c 1 3 && mknod -m 660 disk b 7 0 && chown 12:34 deep/er/other null deep &&
        chown -h 56:78 gone fifo && chmod 2755 deep/er; } 2>/dev/null
    touch -d '2001-02-03 04:05:06.789' file deep/er/other && touch -h -d '1969-12-31 23:00:00.25 UTC' gone
    chmod 555 shut && touch -d '2010-11-12' fifo deep/er deep shut .
)
# grown DIRECTORY: what tar(1) keeps of a tree; %T is the device.
grown() {
    (cd "$1" && find . -printf '%p %y %m %U:%G %T@ %n %l\n' | LC_ALL=C sort &&
        find . \( -type b -o -type c \) -exec stat -c '%n %t:%T' {} + | LC_ALL=C sort &&
        find . -type f -exec cksum {} + | LC_ALL=C sort -k3)
}
if tar --format=pax -C "$grown/tree" -cf "$work/grown.tar" . 2>/dev/null && mkdir "$grown/tar" &&
    tar --numeric-owner -xpf "$work/grown.tar" -C "$grown/tar" 2>/dev/null; then
    by_tar=$(grown "$grown/tar")
    for unpack in "${unpackers[@]}"; do
        name=${unpack##*/}
        mkdir "$grown/$name"
        own=-o
        [ "$(id -u)" -eq 0 ] || own=-t
        (umask 077 && "$unpack" $own -t "$grown/$name" <"$work/grown.tar" 2>"$work/err")
        verdict $? "$name of a tree: $(cat "$work/err")"
        [ "$(grown "$grown/$name")" = "$by_tar" ]
        verdict $? "$name makes another tree than tar(1): $(diff <(grown "$grown/$name") <(echo "$by_tar"))"
        # A second time into what is there already: it is replaced.
        "$unpack" $own -s -t "$grown/$name" <"$work/grown.tar" 2>"$work/err" && [ "$(grown "$grown/$name")" = "$by_tar" ]
        verdict $? "$name over what is there: $(cat "$work/err")$(diff <(grown "$grown/$name") <(echo "$by_tar"))"
    done
else
    skip 'a tree unpacked as tar(1) does' 'there is no tar here that writes pax archives, or it may not make what is in one'
fi

# What comes twice is as tar(1) leaves it: a file, which is a link to itself then, and a directory of other modes, by other names of
# it, too. A global header is no entry.
again=$work/twice
mkdir -p "$again/tree/d" "$again/tar" && echo file >"$again/tree/a"
# appended MODE NAME..: adds entries of that mode.
appended() {
    tar --format=pax -C "$again/tree" --no-recursion --mode="$1" -rf "$again/tar.tar" "${@:2}"
}
if tar --format=pax --pax-option=comment=x -C "$again/tree" -cf "$again/tar.tar" a a 2>/dev/null && appended 755 . && appended 777 ./d d &&
    appended 700 d && appended 750 . && tar --numeric-owner -xpf "$again/tar.tar" -C "$again/tar" 2>/dev/null; then
    by_tar=$(grown "$again/tar")
    [ "$(stat -c %a "$again/tar" "$again/tar/d" | xargs)" = '750 700' ]
    verdict $? "what tar(1) makes of an archive with entries that come twice: $by_tar"
    for unpack in "${unpackers[@]}"; do
        name=${unpack##*/}
        mkdir "$again/$name"
        "$unpack" -t "$again/$name" <"$again/tar.tar" 2>"$work/err" && [ "$(grown "$again/$name")" = "$by_tar" ]
        verdict $? "$name, of what comes twice: $(cat "$work/err")$(diff <(grown "$again/$name") <(echo "$by_tar"))"
    done
else
    skip 'what comes twice in an archive' 'there is no tar here that writes pax archives'
fi

# An owner of -1 is none: chown(2) would leave the one that is there.
if tar --format=pax --pax-option=uid:=-1 -C "$again/tree" -cf "$again/owner.tar" a 2>/dev/null; then
    for unpack in "${unpackers[@]}"; do
        mkdir "$again/owner"
        ! "$unpack" -o "$again/owner" <"$again/owner.tar" 2>"$work/err" && grep -q 'a pax number is none\|invalid argument' "$work/err"
        verdict $? "${unpack##*/}, of an owner of -1: $(cat "$work/err")"
        rm -r "$again/owner"
    done
else
    skip 'an owner of -1 in an archive' 'there is no tar here that writes pax archives'
fi

# The attacks work where they meet an unpacker that opens by its own paths: below a root directory of its own, so that
# nothing else can be changed.
if compiles cc -static && unshare -rm true 2>/dev/null; then
    trap_box=$work/trap
    mkdir -p "$trap_box/proc" "$trap_box/box" "$trap_box/outside" && echo secret >"$trap_box/outside/secret"
    sed 's/inroot_openat(u->at, last, O_WRONLY | O_CREAT | O_EXCL, 0600, 0)/openat(u->root, entry->name, O_WRONLY | O_CREAT, 0600)/' \
        examples/runtime/unpack.c >"$work/naive.c"
    has 'a naive unpacker' cc -std=gnu11 -static -Iexamples/runtime -o "$trap_box/naive" "$work/naive.c" \
        examples/runtime/tar.c "${static_flags[@]}"
    examples/runtime/make-attacks /outside >"$trap_box/attacks.tar"
    unshare -rm bash -c "PATH=$PATH:/usr/sbin:/sbin; mount --rbind /proc '$trap_box/proc' && chroot '$trap_box' /naive /box" \
        <"$trap_box/attacks.tar" 2>/dev/null
    [ "$(cat "$trap_box/outside/secret")" != secret ] && [ -e "$trap_box/outside/by-link" ] &&
        [ -e "$trap_box/escaped-too" ]
    verdict $? 'the attacks do nothing to a naive unpacker'
else
    skip 'the attacks on a naive unpacker' 'no right to unshare, or no static C library here'
fi

# Cut off, or with a byte changed, the archive is refused or makes something else; and nothing outside is changed.
# shellcheck disable=SC2086
has 'unpack with sanitizers' cc -std=gnu11 -g $sanitized -o "$work/watched" examples/runtime/unpack.c \
    examples/runtime/tar.c "${flags[@]}"
statuses=
for at in 0 100 512 700 1024 5000 9000 15000 20000 24000; do
    mkdir "$work/cut"
    head -c "$at" "$work/attacks.tar" | "$work/watched" "$work/cut" >/dev/null 2>"$work/err"
    statuses="$statuses $?"
    chmod -R u+rwx "$work/cut"; rm -rf "$work/cut"
done
[ "$statuses" = ' 4 4 4 4 4 4 4 4 4 4' ]
verdict $? "an archive that is cut off: statuses$statuses"
# Of a pax header no checksum covers the contents: each byte of the first records is changed in turn.
at=$(grep -abo ' path=ok/' "$work/attacks.tar" | head -n 1 | cut -d : -f 1)
wrong=
for ((i = at - 4; i < at + 12; i++)); do
    cp "$work/attacks.tar" "$work/changed.tar"
    printf '\377' | dd of="$work/changed.tar" bs=1 seek="$i" conv=notrunc status=none
    mkdir "$work/cut"
    ASAN_OPTIONS=exitcode=99 "$work/watched" "$work/cut" <"$work/changed.tar" >/dev/null 2>"$work/err"
    status=$?
    [ "$status" -eq 1 ] || [ "$status" -eq 4 ] || wrong="$wrong $i: $status"
    chmod -R u+rwx "$work/cut"; rm -rf "$work/cut"
done
[ -n "$at" ] && [ -z "$wrong" ]
verdict $? "an archive with a byte changed:$wrong $(tail -n 3 "$work/err")"
printf 'x%.0s' {1..2000} | "$work/watched" "$box" 2>"$work/err"
[ $? -eq 4 ] && grep -q 'wrong checksum' "$work/err"
verdict $? "no archive: $(cat "$work/err")"
[ "$(outside)" = "$before" ]
verdict $? 'an archive that is cut off changed what is outside'

# A directory that is moved while entries are made in it: this is told, and nothing else outside is changed.
mkdir -p "$work/half/d" && echo one >"$work/half/d/one" && echo two >"$work/half/d/two"
if tar --format=ustar -C "$work/half" -cf "$work/half.tar" d/ 2>/dev/null; then
    # Of the headers and contents, so many bytes until the first file is whole.
    whole=1536
    for unpack in "${unpackers[@]}"; do
        name=${unpack##*/}
        mkdir "$work/moving-$name" "$work/moved-$name"
        {
            head -c "$whole" "$work/half.tar"
            for ((i = 0; i < 200; i++)); do [ ! -s "$(echo "$work/moving-$name/d/"*)" ] || break; sleep 0.05; done
            mv "$work/moving-$name/d" "$work/moved-$name/d"
            tail -c +$((whole + 1)) "$work/half.tar"
        } | "$unpack" "$work/moving-$name" 2>"$work/err"
        [ "${PIPESTATUS[1]}" -eq 1 ] && grep -q 'somebody moved or removed it' "$work/err" &&
            [ "$(cd "$work/moved-$name" && find . | LC_ALL=C sort | xargs)" = '. ./d ./d/one ./d/two' ]
        verdict $? "$name, of a directory that was moved: $(cat "$work/err")"
        # Where it asks for each entry, nothing more is made there.
        rm -rf "$work/moving-$name" "$work/moved-$name"
        mkdir "$work/moving-$name" "$work/moved-$name"
        {
            head -c "$whole" "$work/half.tar"
            for ((i = 0; i < 200; i++)); do [ ! -s "$(echo "$work/moving-$name/d/"*)" ] || break; sleep 0.05; done
            mv "$work/moving-$name/d" "$work/moved-$name/d"
            tail -c +$((whole + 1)) "$work/half.tar"
        } | "$unpack" -s "$work/moving-$name" 2>"$work/err"
        [ "${PIPESTATUS[1]}" -eq 1 ] && [ "$(find "$work/moved-$name" -type f | wc -l)" -eq 1 ]
        verdict $? "$name -s, of a directory that was moved: $(cat "$work/err")"
    done
else
    skip 'an archive whose directory is moved meanwhile' 'there is no tar with ustar archives here'
fi

# While a directory of the root is exchanged for a link out of it, again and again.
mkdir -p "$work/race/swap" "$work/many/swap" && ln -s ../outside "$work/race/other"
for ((i = 0; i < 300; i++)); do echo "$i" >"$work/many/swap/$i"; done
if tar --format=pax -C "$work/many" -cf "$work/many.tar" swap/ 2>/dev/null; then
    for unpack in "${unpackers[@]}"; do
        ( while [ -e "$work/race" ]; do "$fs" "$work/race" mv --exchange swap other 2>/dev/null; done ) &
        attacker=$!
        for ((i = 0; i < 4; i++)); do "$unpack" "$work/race" <"$work/many.tar" 2>/dev/null; done
        kill "$attacker"; wait "$attacker" 2>/dev/null
        [ "$(outside)" = "$before" ]
        verdict $? "${unpack##*/}, raced, changed what is outside: $(diff <(echo "$before") <(outside))"
    done
else
    skip 'an archive unpacked in a race' 'there is no tar with pax archives here'
fi

# A mount's target.
for kind in dir file; do
    told=$("$work/mount-target" "$box" "in/new/$kind" $kind)
    [[ $told == "$box/a/b/new/$kind /proc/self/fd/"[0-9]* ]] &&
        [ "$("$fs" "$box" stat "a/b/new/$kind" | head -n 1)" = "kind $kind" ]
    verdict $? "mount-target of a $kind: $told"
done
mkdir "$box/"$'odd\e[2J\x9b' && ln -s $'odd\e[2J\x9b' "$box/plain"
told=$("$work/mount-target" "$box" plain/new dir)
[[ $told == "$box/odd?[2J?/new /proc/self/fd/"[0-9]* ]]
verdict $? "mount-target below a directory with an odd name: $(cat -v <<<"$told")"
rm -r "$box/"$'odd\e[2J\x9b' "$box/plain"
! "$work/mount-target" "$box" abs/new dir 2>/dev/null && ! "$work/mount-target" "$box" fifo file 2>/dev/null
verdict $? 'mount-target through a link that leads out, and of a FIFO'
if unshare -rm true 2>/dev/null; then
    mounted="'$work/mount-target' '$box' in/new/dir dir '$work/many' >/dev/null && ls '$box/a/b/new/dir'"
    [ "$(unshare -rm bash -c "$mounted")" = swap ]
    verdict $? 'a mount on its target'
else
    skip 'a mount on its target' 'no right to mount here'
fi
[ "$(outside)" = "$before" ]
verdict $? 'mount-target changed what is outside'
