# Completion of inroot-fs(1) for fish.

# The words before the one at the cursor. Each ends with a NUL, here and below, since a name may have a newline.
function __inroot_fs_words
    printf '%sx' (commandline -pc | string collect) | read -zlat words
    set -e words[-1]
    printf '%s\0' $words | string split0
end

function __inroot_fs_at
    test (count (__inroot_fs_words)) -eq $argv
end

function __inroot_fs_in
    set -l words (__inroot_fs_words)
    test (count $words) -ge 3; and contains -- $words[3] $argv
end

# The names below ROOT. They are asked of inroot-fs itself, so that no link of ROOT leads out of it. Names that would be an option
# or a home directory come behind `./` alone. One with a tab is left out: fish takes the rest of it for a description.
function __inroot_fs_paths
    set -l words (__inroot_fs_words)
    set -l above (string unescape -- (commandline -ct) | string match -r '(?s)^.*/' | string collect)
    set -l asked $above .
    for name in (inroot-fs $words[2] ls --zero -- $asked[1] 2>/dev/null | string split0)
        set name "$above$name"
        string match -qr '^[-~]|\t' -- $name; or printf '%s\0' $name
    end | string split0
end

complete -c inroot-fs -f
complete -c inroot-fs -n '__inroot_fs_at 1' -F
complete -c inroot-fs -n '__inroot_fs_at 1' -s h -l help -d 'Print help'
complete -c inroot-fs -n '__inroot_fs_at 1' -s V -l version -d 'Print the version'
complete -c inroot-fs -n '__inroot_fs_at 2' -a resolve -d 'Tell what a path means'
complete -c inroot-fs -n '__inroot_fs_at 2' -a realpath -d 'Print where a path leads'
complete -c inroot-fs -n '__inroot_fs_at 2' -a cat -d 'Print files'
complete -c inroot-fs -n '__inroot_fs_at 2' -a ls -d 'Print the names in a directory'
complete -c inroot-fs -n '__inroot_fs_at 2' -a readlink -d 'Print the text of a link'
complete -c inroot-fs -n '__inroot_fs_at 2' -a stat -d 'Print kind, mode, owner, size and times'
complete -c inroot-fs -n '__inroot_fs_at 2' -a write -d 'Write standard input to a file'
complete -c inroot-fs -n '__inroot_fs_at 2' -a mkdir -d 'Make a directory'
complete -c inroot-fs -n '__inroot_fs_at 2' -a mknod -d 'Make a FIFO, a socket or a device'
complete -c inroot-fs -n '__inroot_fs_at 2' -a chmod -d 'Change a mode'
complete -c inroot-fs -n '__inroot_fs_at 2' -a chown -d 'Change an owner'
complete -c inroot-fs -n '__inroot_fs_at 2' -a rm -d 'Remove an entry'
complete -c inroot-fs -n '__inroot_fs_at 2' -a rmdir -d 'Remove an empty directory'
complete -c inroot-fs -n '__inroot_fs_at 2' -a mv -d 'Rename an entry'
complete -c inroot-fs -n '__inroot_fs_at 2' -a ln -d 'Make a link'
set -l all resolve realpath cat ls readlink stat write mkdir mknod chmod chown rm rmdir mv ln
complete -c inroot-fs -n "__inroot_fs_in $all" -a '(__inroot_fs_paths)'
complete -c inroot-fs -n "__inroot_fs_in $all" -s b -l beneath -d 'Refuse what leads out of ROOT'
complete -c inroot-fs -n "__inroot_fs_in $all" -s L -l no-links -d 'Follow no link'
complete -c inroot-fs -n "__inroot_fs_in $all" -s D -l no-xdev -d 'Refuse what is mounted below ROOT'
complete -c inroot-fs -n "__inroot_fs_in $all" -s e -l exact -d 'Walk by single steps'
complete -c inroot-fs -n '__inroot_fs_in resolve realpath stat chown' -s P -l nofollow -d 'Take a link at the end itself'
complete -c inroot-fs -n '__inroot_fs_in ls' -s l -l long -d 'With modes, owners, sizes and dates'
complete -c inroot-fs -n '__inroot_fs_in ls readlink realpath' -s z -l zero -d 'End each with a NUL'
complete -c inroot-fs -n '__inroot_fs_in write mkdir mknod' -s m -l mode -x -d 'Mode of what is made'
complete -c inroot-fs -n '__inroot_fs_in write' -s a -l append -d 'Write at the end'
complete -c inroot-fs -n '__inroot_fs_in write' -s x -l exclusive -d 'Refuse what is there'
complete -c inroot-fs -n '__inroot_fs_in mkdir' -s p -l parents -d 'Make what is missing on the way'
complete -c inroot-fs -n '__inroot_fs_in rm' -s r -l recursive -d 'With all that is below it'
complete -c inroot-fs -n '__inroot_fs_in mv' -s n -l no-replace -d 'Refuse where TO is there'
complete -c inroot-fs -n '__inroot_fs_in mv' -s X -l exchange -d 'Exchange the two entries'
complete -c inroot-fs -n '__inroot_fs_in ln' -s s -l symbolic -d 'Make a symbolic link'
