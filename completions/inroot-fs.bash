# Completion of inroot-fs(1) for bash.
_inroot_fs_options() {
    local own=
    case $1 in
    resolve | stat | chown) own='--nofollow' ;;
    realpath) own='--nofollow --zero' ;;
    ls) own='--long --zero' ;;
    readlink) own='--zero' ;;
    write) own='--mode --append --exclusive' ;;
    mkdir) own='--parents --mode' ;;
    mknod) own='--mode' ;;
    rm) own='--recursive' ;;
    mv) own='--no-replace --exchange' ;;
    ln) own='--symbolic' ;;
    esac
    echo "--beneath --no-links --no-xdev --exact --help $own"
}

# The names below ROOT that begin with the word. They are asked of inroot-fs itself, so that no link leads out of it. Each is
# quoted: who names files there would else choose what the shell runs.
_inroot_fs_paths() {
    local root=$1 word=$2 above='' name
    # What comes behind one of these signs is a word of its own to readline.
    [[ $word != *[:=@]* ]] || return
    case $word in
    */*) above=${word%/*}/ ;;
    esac
    while IFS= read -r -d '' name; do
        name=$above$name
        [[ $name == "$word"* ]] || continue
        [[ $name != -* ]] || name=./$name
        printf '%q\n' "$name"
    done < <(inroot-fs "$root" ls --zero -- "${above:-.}" 2>/dev/null)
}

_inroot_fs() {
    local word=${COMP_WORDS[COMP_CWORD]} words at
    # COMP_WORDS has quotes and backslashes, and is divided at a colon, too. A word that was typed in quotes isn't completed.
    [[ ${word//\\?/} != *[\'\"]* ]] || return
    mapfile -d '' -t words < <(xargs printf '%s\0' <<<"${COMP_LINE:0:COMP_POINT}x" 2>/dev/null)
    at=$((${#words[@]} - 1))
    [ "$at" -gt 0 ] || return
    word=${words[at]%x}
    case $at in
    1)
        compopt -o plusdirs -o filenames
        mapfile -t COMPREPLY < <(compgen -W '--help --version' -- "$word")
        ;;
    2) mapfile -t COMPREPLY < <(compgen -W 'resolve realpath cat ls readlink stat write mkdir mknod chmod chown rm rmdir mv ln' -- "$word") ;;
    *)
        if [[ $word == -* ]]; then
            mapfile -t COMPREPLY < <(compgen -W "$(_inroot_fs_options "${words[2]}")" -- "$word")
        else
            compopt -o nospace
            mapfile -t COMPREPLY < <(_inroot_fs_paths "${words[1]/#\~\//$HOME/}" "$word")
        fi
        ;;
    esac
}
complete -F _inroot_fs inroot-fs
