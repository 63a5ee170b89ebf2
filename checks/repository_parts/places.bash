# shellcheck shell=bash
# Where each call and each flag of host/inroot.h stands, and each command and each option of inroot-fs: the checklists of
# CONTRIBUTING. checks/repository reads this file.

# not_wanted PLACE NAME: whether a call or a flag need not stand there.
not_wanted() {
    case $1:$2 in
    # Go and Rust ask the descriptor that a call has opened.
    go:inroot_stat | rust:inroot_stat) ;;
    go:INROOT_PLAIN | rust:INROOT_PLAIN | python:INROOT_PLAIN | tool:INROOT_PLAIN | test:INROOT_PLAIN) ;;
    # Python has what pathlib, os and shutil have a name for.
    python:inroot_fchown | python:inroot_futimens | python:inroot_f*xattr | python:inroot_last_error | python:inroot_link_fd) ;;
    python:inroot_mkfile_all | python:inroot_mknod | python:inroot_open_parent | python:inroot_place | python:inroot_reopen) ;;
    python:inroot_stat | python:inroot_*proc* | python:INROOT_PROC_*) ;;
    python:INROOT_DIRECTORY | python:INROOT_FOLLOW | python:INROOT_GIVE) ;;
    # inroot-fs has no command for these.
    tool:inroot_futimens | tool:inroot_f*xattr | tool:inroot_link_fd | tool:inroot_mkfile_all | tool:inroot_open_parent) ;;
    tool:inroot_*proc* | tool:INROOT_PROC_*) ;;
    tool:INROOT_DIRECTORY | tool:INROOT_FOLLOW | tool:INROOT_GIVE | tool:INROOT_NO_RETRY | tool:INROOT_WHITEOUT) ;;
    *) return 1 ;;
    esac
}

# stands PLACE NAME: whether the place has the call or the flag.
stands() {
    local short=${2#*_}
    case $1:$2 in
    map:inroot_*) grep -qx "    $2;" host/libinroot.map ;;
    man:inroot_*) grep -qE "^[.]Nm $2( ,)*$" man/*.3 ;;
    man:*) grep -qE "^[.](It )?Dv $2\b" man/*.[37] ;;
    manual:*) grep -q "\`$2\`" docs/HOST.md || grep -qE "^[.](Fn|Xr|It Fn) $2\b" man/libinroot.7 ;;
    go:*) grep -qE "\bC\.$2\b" bindings/go/*.go ;;
    rust:inroot_*) grep -qE "\b$2\b" bindings/rust/src/*.rs ;;
    rust:INROOT_NO_LINKS) stands rust INROOT_NO_SYMLINKS ;;
    # Rust has these as an enum, each by its number.
    rust:INROOT_PROC_*) grep -qF -- "=> -$(sed -n "s/.*\b$2 = -\([0-9]*\).*/\1/p" host/inroot.h)," bindings/rust/src/proc.rs ;;
    rust:*) grep -qE "\bconst (INROOT_|RENAME_)?$short\b" bindings/rust/src/*.rs ;;
    python:inroot_*) grep -qE "^ *\(\"$short\", " bindings/python/inroot.py ;;
    python:*) grep -qE "^ *_?$short = [0-9]+\b" bindings/python/inroot.py ;;
    tool:*) grep -qE "\b$2\b" host/inroot-fs*.c ;;
    test:*) grep -qE "\b$2\b" host/tests/*.c ;;
    *) false ;;
    esac
}

# lacking NAME PLACE..: the places that lack the call or the flag, and are to have it.
lacking() {
    local place
    for place in "${@:2}"; do
        stands "$place" "$1" || not_wanted "$place" "$1" || printf ' %s' "$place"
    done
}
of_calls=(map man manual go rust python tool test)
of_flags=(man go rust python tool test)
mapfile -t calls < <(sed -n 's/^[a-z][a-z_ ]*[ *]\(inroot_[a-z_]*\)(.*/\1/p' host/inroot.h)
mapfile -t flags < <(grep -oE '\bINROOT_[A-Z_]+ = ' host/inroot.h | sed 's/ = //' | grep -vx INROOT_TRIES)
for name in "${calls[@]}"; do
    lack=$(lacking "$name" "${of_calls[@]}")
    [ -z "$lack" ]
    verdict $? "$name stands in host/inroot.h and not in:$lack"
done
for name in "${flags[@]}"; do
    lack=$(lacking "$name" "${of_flags[@]}")
    [ -z "$lack" ]
    verdict $? "$name stands in host/inroot.h and not in:$lack"
done
[ ${#calls[@]} -ge 30 ] && [ ${#flags[@]} -ge 15 ] && [ "$(grep -c '^    inroot_[a-z_]*;$' host/libinroot.map)" -eq ${#calls[@]} ]
verdict $? 'host/libinroot.map has other calls than host/inroot.h'
[ "$(lacking inroot_none "${of_calls[@]}")" = ' map man manual go rust python tool test' ] &&
    [ "$(lacking INROOT_NONE "${of_flags[@]}")" = ' man go rust python tool test' ]
verdict $? 'a call or a flag that stands nowhere is not found'

# stands_for_shells WORD: whether the page and each completion of inroot-fs have the command, or the option with its dashes.
stands_for_shells() {
    case $1 in
    --*) grep -qE "^[.]It Fl . , Fl Fl ${1#--}( |$)" man/inroot-fs.1 && grep -qE -- "['\" ]$1[' ]" completions/inroot-fs.bash &&
        grep -qF -- "'$1[" completions/_inroot-fs && grep -qE -- " -l ${1#--} " completions/inroot-fs.fish ;;
    *) grep -qE "^[.]It Cm $1( |$)" man/inroot-fs.1 && grep -qE "compgen -W '[^']*\b$1\b" completions/inroot-fs.bash &&
        grep -qF "'$1:" completions/_inroot-fs && grep -qE -- " -a $1 " completions/inroot-fs.fish ;;
    esac
}
commands=$(sed -n '/ commands\[\] = {/,/};/s/^    {"\([a-z]*\)".*/\1/p' host/inroot-fs.c)
options=$(sed -n '/ long_options\[\] = {/,/};/p' host/inroot-fs.c | grep -oE '\{"[a-z-]+"' | sed 's/{"\(.*\)"/--\1/' | grep -vx -- --help)
for word in $commands $options; do
    stands_for_shells "$word"
    verdict $? "$word of inroot-fs is missing in man/inroot-fs.1 or in a completion"
    [[ $word == --* ]] || grep -qE "^    \"  $word\b" host/inroot-fs.c
    verdict $? "the help of inroot-fs has not $word"
done
[ "$(wc -w <<<"$commands $options")" -ge 25 ] && ! stands_for_shells none && ! stands_for_shells --none
verdict $? 'a command or an option of inroot-fs that stands nowhere is not found'
