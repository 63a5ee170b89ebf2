# Completion of inroot(1) for bash.
_inroot() {
    local word=${COMP_WORDS[COMP_CWORD]} before=${COMP_WORDS[COMP_CWORD - 1]} words=
    local commands='walk replay draw run explore help' arguments=0 at
    if [ "$before" = '<' ]; then
        compopt -o default
        return
    fi
    # An equals sign is a word of its own.
    [ "$word" != '=' ] || word=
    [ "$before" != '=' ] || before=${COMP_WORDS[COMP_CWORD - 2]}
    if [ "$COMP_CWORD" -eq 1 ]; then
        words="$commands --help --version"
    else
        case ${COMP_WORDS[1]} in
        walk) words='--beneath --no-links --strict --help' ;;
        replay) words='--json --schedule --strict --help' ;;
        draw) words='--svg --html --all --width --color --schedule --strict --help' ;;
        run) words='--workers --strict --help' ;;
        explore) words='--actor --cuts --begin --html --part --merge --states --memory --outside --when --never --always --strict --help' ;;
        help) words=$commands ;;
        esac
    fi
    case $before in
    --color) words='never auto always' ;;
    --workers) words='1 2 3 4 5 6 7 8' ;;
    --width | --schedule | --actor | --cuts | --begin | --states | --memory | --when | --never | --always) words= ;;
    *)
        # The last argument is a script's file; of walk a path stands before it. A name is completed once it is begun,
        # since `-q` as an argument is an option.
        for ((at = 2; at < COMP_CWORD; at++)); do
            [[ ${COMP_WORDS[at]} == -* ]] || arguments=$((arguments + 1))
        done
        if [[ $word == [!-]* && ${COMP_WORDS[1]} != help && $COMP_CWORD -gt 1 &&
            (${COMP_WORDS[1]} != walk || $arguments -gt 0) ]]; then
            compopt -o default
            return
        fi
        ;;
    esac
    mapfile -t COMPREPLY < <(compgen -W "$words" -- "$word")
}
complete -F _inroot inroot
