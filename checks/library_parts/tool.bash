# shellcheck shell=bash disable=SC2154
# inroot-fs as a user runs it. checks/library reads this file.

fs=$prefix/bin/inroot-fs
# What is expected below is watched by sanitizers where the compiler has them.
watched_fs=$fs
sanitized='-fsanitize=address,undefined -fno-sanitize-recover=all'
# shellcheck disable=SC2086
if compiles cc $sanitized; then
    watched_fs=$work/watched-fs
    has 'inroot-fs under sanitizers' cc -std=gnu11 -g $sanitized -Ihost -o "$watched_fs" host/inroot-fs*.c \
        "$prefix/lib/libinroot.a" -pthread
else
    skip 'inroot-fs and unpack under sanitizers' 'the compiler has none'
    sanitized=
fi
# expect STATUS STDOUT STDERR ARGS..: below the box; STDERR is the first line, or empty. Standard input is the case's.
expect() {
    local status=$1 out=$2 err=$3 got said
    shift 3
    said=$(timeout 60 "$watched_fs" "$box" "$@" 2>"$work/err")
    got=$?
    [ "$got" -eq "$status" ] && [ "$said" = "$out" ] && [ "$(head -n 1 "$work/err")" = "$err" ]
    verdict $? "inroot-fs $*: status $got, '$said', '$(cat "$work/err")'"
}
expect 0 "opened file $box/a/b/f" '' resolve in/f
# What docs/HOST.md shows: the command, and the line below it.
shown=$(grep -A 1 '^    \$ inroot-fs ' docs/HOST.md | sed "s|/srv/box|$box|g; s/^ *//; s/^\$ inroot-fs //")
# shellcheck disable=SC2046
[ -n "$shown" ] && [ "$("$fs" $(head -n 1 <<<"$shown"))" = "$(tail -n 1 <<<"$shown")" ]
verdict $? "docs/HOST.md shows another answer: $shown"
expect 0 "opened dir $box" '' resolve ../../..
expect 0 "opened link $box/in" '' resolve --nofollow in
expect 1 'fault ENOENT' "inroot-fs: resolve 'up/secret': can't look up \"outside\": No such file or directory (ENOENT)" resolve up/secret
expect 1 'fault EXDEV' "inroot-fs: resolve 'in/f': can't read the link: it leads out of the root or to another mount (EXDEV)" resolve --beneath in/f
expect 1 'fault ELOOP' "inroot-fs: resolve 'in/f': can't look up \"in\": too many links, or one that the call doesn't follow (ELOOP)" resolve --no-links in/f
expect 1 'fault ENOTDIR' "inroot-fs: resolve 'a/b/f/x': can't look up \"f\": Not a directory (ENOTDIR)" resolve a/b/f/x
expect 0 "$box/a/b/f" '' realpath in/f
expect 0 "opened file $box/a/b/f" '' resolve --exact in/f
expect 0 "$box/in" '' realpath --nofollow in
expect 1 '' "inroot-fs: realpath 'none': can't look up the path: No such file or directory (ENOENT)" realpath none
expect 0 inside '' cat in/f
expect 1 inside "inroot-fs: cat 'up/secret': can't look up \"outside\": No such file or directory (ENOENT)" cat up/secret in/f
expect 1 '' "inroot-fs: cat 'a': Is a directory (EISDIR)" cat a
expect 0 $'a\nabs\nin\nup' '' ls
expect 0 f '' ls in
expect 1 '' "inroot-fs: ls 'in/f': can't open the object: Not a directory (ENOTDIR)" ls in/f
expect 0 /a/../../a/b '' readlink in
expect 1 '' "inroot-fs: readlink 'a': it is not a link (EINVAL)" readlink a
expect 1 '' "inroot-fs: readlink 'none': can't look up the path: No such file or directory (ENOENT)" readlink none
expect 0 '' '' mkdir --parents --mode 711 in/x/y
expect 1 '' "inroot-fs: mkdir 'up/x': can't look up \"outside\": No such file or directory (ENOENT)" mkdir --parents up/x
expect 1 '' "inroot-fs: mkdir 'a': can't make the directory \"a\": it is there already (EEXIST)" mkdir a
expect 1 '' "inroot-fs: mkdir 'none/../y': can't find the object's place: No such file or directory (ENOENT)" mkdir -p none/../y
expect 1 '' "inroot-fs: mkdir 'in/f/y': can't look up \"f\": Not a directory (ENOTDIR)" mkdir -p in/f/y
expect 1 '' "inroot-fs: rm 'a/..': an argument isn't valid: a flag, a mode, or a path that ends in no name (EINVAL)" rm -r a/..
expect 0 '' '' write --mode 600 in/x/new <<<data
expect 0 '' '' write --append in/x/new <<<more
expect 0 $'data\nmore' '' cat a/b/x/new
expect 1 '' "inroot-fs: write 'in/x/new': can't make the file \"new\": it is there already (EEXIST)" write --exclusive in/x/new <<<lost
expect 0 '' '' write in/x/new <<<again
expect 0 again '' cat in/x/new
[ "$(stat -c %a "$box/a/b/x" "$box/a/b/x/new" | xargs)" = '711 600' ]
verdict $? 'inroot-fs made other modes'
[ "$("$fs" "$box" stat in/x/new | sed -n '1,2p;6p' | xargs)" = 'kind file mode 0600 size 6' ]
verdict $? "inroot-fs stat: $("$fs" "$box" stat in/x/new)"
mkfifo "$box/fifo"
expect 1 '' "inroot-fs: cat 'fifo': it is not a regular file (EINVAL)" cat fifo
expect 1 '' "inroot-fs: write 'fifo': it is not a regular file (EINVAL)" write fifo <<<lost
# Kinds, modes and owners; of a link itself, and of what it means.
expect 0 '' '' mknod in/x/p p
expect 0 '' '' mknod -m 640 in/x/s s
expect 1 '' "inroot-fs: mknod 'in/x/p': can't make the file \"p\": it is there already (EEXIST)" mknod in/x/p f
expect 2 '' "inroot-fs: a kind is f, p, s, c or b, and not 'd'" mknod in/x/d d
expect 2 '' 'inroot-fs: MAJOR and MINOR are given for a device, and for nothing else' mknod in/x/d p 1 3
expect 2 '' "inroot-fs: a device has two numbers, and not '3x'" mknod in/x/d c 1 3x
[ "$(stat -c '%F %a' "$box/a/b/x/p" "$box/a/b/x/s" | xargs)" = 'fifo 644 socket 640' ]
verdict $? "inroot-fs mknod made other kinds: $(stat -c '%F %a' "$box/a/b/x/"[ps])"
ln -s new "$box/a/b/x/last"
expect 0 '' '' chmod 0604 in/x/last
expect 0 '' '' chmod 0750 in/x
expect 0 '' '' chmod 0600 in/x/p
expect 1 '' "inroot-fs: chmod 'up/secret': can't look up \"outside\": No such file or directory (ENOENT)" chmod 600 up/secret
expect 2 '' "inroot-fs: a mode is octal digits, at most 7777, and not 'u+x'" chmod u+x in/x
[ "$(stat -c %a "$box/a/b/x" "$box/a/b/x/new" "$box/a/b/x/p" | xargs)" = '750 604 600' ]
verdict $? "inroot-fs chmod: $(stat -c %a "$box/a/b/x" "$box/a/b/x/new" | xargs)"
expect 2 '' "inroot-fs: an owner is UID, UID:GID or :GID, in numbers, and not '5:'" chown 5: in/x
expect 0 '' '' chown "$(id -u):$(id -g)" in/x/new
if [ "$(id -u)" -eq 0 ] && chown 7 "$box/a/b/x/new" 2>/dev/null; then
    expect 0 '' '' chown 5:6 in/x/last
    expect 0 '' '' chown :9 in/x/last
    expect 0 '' '' chown --nofollow 8 in/x/last
    [ "$(stat -c '%u %g' "$box/a/b/x/new" "$box/a/b/x/last" | xargs)" = '5 9 8 0' ]
    verdict $? "inroot-fs chown: $(stat -c '%u %g' "$box/a/b/x/new" "$box/a/b/x/last" | xargs)"
    chown 0:0 "$box/a/b/x/new"
else
    skip 'inroot-fs chown to another owner' 'only root may'
fi
touch -h -d @0 "$box/a/b/x/"*
entries=$(stat -c '%A %h %u %g %s 1970-01-01T00:00:00Z %n' "$box/a/b/x/"* | sed "s|$box/a/b/x/||; s/ last$/& -> new/")
[ "$("$fs" "$box" ls -l in/x)" = "$entries" ]
verdict $? "inroot-fs ls -l: $("$fs" "$box" ls -l in/x)"
"$fs" "$box" stat in/x/new | grep -qx 'date 1970-01-01T00:00:00Z'
verdict $? 'inroot-fs stat has no date'
for name in p s last; do
    expect 0 '' '' rm "in/x/$name"
done
# A file is made at the end of links, by the last one's directory; a loop of links, or one under --no-links, leads to none.
ln -s ../chain-2 "$box/a/chain-1" && ln -s a/made "$box/chain-2" && ln -s loop "$box/loop"
expect 1 '' "inroot-fs: write 'a/chain-1': can't look up \"chain-1\": too many links, or one that the call doesn't follow (ELOOP)" write -L a/chain-1 <<<lost
expect 0 '' '' write a/chain-1 <<<made
expect 0 made '' cat a/made
expect 1 '' "inroot-fs: write 'loop': can't look up \"loop\": too many links, or one that the call doesn't follow (ELOOP)" write loop <<<lost
rm "$box/a/chain-1" "$box/chain-2" "$box/loop" "$box/a/made"
# A link's text that makes too long a path.
ln -s "$(printf './%.0s' {1..600})made" "$box/long"
path=$(printf './%.0s' {1..1500})long
expect 1 '' "inroot-fs: write '$path': File name too long (ENAMETOOLONG)" write "$path" <<<lost
rm "$box/long"
# Where standard files are closed, what is told doesn't come to the file that is written.
"$watched_fs" "$box" write closed <&- 2>&-
[ $? -eq 4 ] && [ -f "$box/closed" ] && [ ! -s "$box/closed" ]
verdict $? "inroot-fs write without standard input and error: $(cat "$box/closed" 2>&1)"
rm -f "$box/closed"
[ "$("$watched_fs" / realpath /)" = / ] && [ "$("$watched_fs" / realpath "$box/a")" = "$(realpath "$box")/a" ]
verdict $? "inroot-fs / realpath: $("$watched_fs" / realpath /) and $("$watched_fs" / realpath "$box/a")"
# There is a /proc, which is a mount of its own.
[ "$("$watched_fs" / resolve -D proc/version 2>/dev/null)" = 'fault EXDEV' ] &&
    [[ $("$watched_fs" / resolve proc/version) == 'opened file '*/version ]]
verdict $? "inroot-fs / resolve --no-xdev proc/version: $("$watched_fs" / resolve -D proc/version 2>&1)"
expect 0 '' '' ln -s /a/b/f link
expect 0 '' '' ln in/f second
expect 0 '' '' mv --exchange link second
expect 0 inside '' cat second
expect 1 '' "inroot-fs: mv 'second': can't rename \"link\": the other name is there already (EEXIST)" mv --no-replace link second
expect 0 '' '' mv link third
expect 0 '' '' rm third
expect 1 '' "inroot-fs: rm 'a': can't remove \"a\": Is a directory (EISDIR)" rm a
expect 1 '' "inroot-fs: rmdir 'a': can't remove the directory \"a\": Directory not empty (ENOTEMPTY)" rmdir a
expect 0 '' '' rmdir in/x/y
expect 0 'removed 2' '' rm -r in/x
expect 0 'removed 0' '' rm -r in/x
expect 0 'removed 1' '' rm -r up
expect 2 '' "inroot-fs: there is no command 'frob'" frob
expect 2 '' "inroot-fs: there is no option '--frob'" rm --frob a
expect 2 '' 'inroot-fs: rm has no option -p' rm -p a
expect 2 '' "inroot-fs: an argument is missing to 'rm'" rm
expect 2 '' "inroot-fs: there is an argument too many: 'b'" rm a b
expect 2 '' "inroot-fs: options stand before the other arguments: '-r'" rm a -r
expect 2 '' "inroot-fs: options stand before the other arguments: '-n'" mv a -n b
expect 2 '' "inroot-fs: a mode is octal digits, at most 7777, and not '8'" mkdir -m 8 x
expect 2 '' "inroot-fs: no value stands after '-m'" mkdir -m
expect 2 '' 'inroot-fs: --no-replace and --exchange exclude each other' mv -nX a b
# By single steps one whose name ends as the kernel writes behind the path of a removed one isn't told apart from that.
touch "$box/a/b/f (deleted)"
expect 0 '' '' cat 'in/f (deleted)'
expect 1 '' "inroot-fs: cat 'in/f (deleted)': can't find the object's place: others moved or removed it at each try, or its name ends in \` (deleted)\` (EAGAIN)" cat --exact 'in/f (deleted)'
rm "$box/a/b/f (deleted)"
touch "$box/"$'odd\n\e[2J\\name'
expect 0 $'a\nabs\nfifo\nin\nodd\\x0a\\x1b[2J\\x5cname\nsecond' '' ls
[ "$("$fs" "$box" ls --zero | tr '\0' '/')" = $'a/abs/fifo/in/odd\n\e[2J\\name/second/' ]
verdict $? 'inroot-fs ls --zero'
# A name whose file can't be read doesn't come to the terminal as it is either.
ln -s /proc/self/mem "$work/"$'un\e[2Jread\x9b'
"$watched_fs" / cat "$work/"$'un\e[2Jread\x9b' 2>"$work/err"
[ $? -eq 4 ] && [[ $(cat "$work/err") == 'inroot-fs: cat: '*'/un\x1b[2Jread\x9b: '*' (EIO)' ]]
verdict $? "inroot-fs cat of what can't be read: $(cat -v "$work/err")"
"$fs" "$box" ls >/dev/full 2>"$work/err"
[ $? -eq 4 ] && [ "$(cat "$work/err")" = 'inroot-fs: write failed' ]
verdict $? "inroot-fs to a full device: $(cat "$work/err")"
"$fs" "$work/none" ls 2>"$work/err"
[ $? -eq 4 ] && grep -q "^inroot-fs: the root can't be opened: $work/none: .*(ENOENT)" "$work/err"
verdict $? "inroot-fs below a root that isn't there: $(cat "$work/err")"
# A removal that takes long is told of on a terminal, and nowhere else.
cat >"$work/slow.c" <<'END'
#define _GNU_SOURCE
#include <sys/syscall.h>
#include <unistd.h>

int unlinkat(int dir, const char *name, int flags)
{
    static int calls;
    if (calls++ == 0)
        sleep(2);
    return (int)syscall(SYS_unlinkat, dir, name, flags);
}
END
if ! lacks script 'what a terminal is told'; then
    has 'a slow unlinkat' cc -shared -fPIC -o "$work/slow.so" "$work/slow.c"
    mkdir -p "$box/slow/x"
    told=$(script -qec "env 'LD_PRELOAD=$work/slow.so' '$fs' '$box' rm -r slow" /dev/null </dev/null | tr -d '\r')
    [[ $told == 'inroot-fs: rm: 1 s'*$'\e[Kremoved 2' ]] && [ ! -e "$box/slow" ]
    verdict $? "a removal that takes long tells a terminal: '$told'"
    mkdir -p "$box/slow/x"
    [ "$(LD_PRELOAD=$work/slow.so "$fs" "$box" rm -r slow 2>&1)" = 'removed 2' ]
    verdict $? 'a removal that takes long tells what is no terminal'
fi
[ "$("$fs" --version)" = "inroot-fs $version" ]
verdict $? "inroot-fs --version: $("$fs" --version)"
[ "$(outside)" = "$before" ]
verdict $? "inroot-fs changed what is outside: $(diff <(echo "$before") <(outside))"
