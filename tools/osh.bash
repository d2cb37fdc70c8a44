# Completion for bash: `source tools/osh.bash`, in ~/.bashrc with the whole path of it, with osh on the PATH or called as bin/osh.

_osh_files() { # _osh_files ENDING: files with it first of all, else any file
    local IFS=$'\n'
    COMPREPLY=($(compgen -f -X "!*.$1" -- "$word") $(compgen -d -- "$word"))
    [ ${#COMPREPLY[@]} -gt 0 ] || COMPREPLY=($(compgen -f -- "$word"))
    compopt -o filenames 2>/dev/null
}

_osh() {
    local word=${COMP_WORDS[COMP_CWORD]} before=${COMP_WORDS[COMP_CWORD - 1]} at given=0
    COMPREPLY=()
    if [ "$COMP_CWORD" -eq 1 ]; then
        COMPREPLY=($(compgen -W "check run score meaning gen --help --version" -- "$word"))
        return
    fi
    case $before in -cap | -spill) return ;; esac
    # how many names of files stand before the word
    for ((at = 2; at < COMP_CWORD; at++)); do
        case ${COMP_WORDS[at]} in
        -cap | -spill) at=$((at + 1)) ;;
        -*) ;;
        *) given=$((given + 1)) ;;
        esac
    done
    case ${COMP_WORDS[1]}:$given in
    run:0)
        if [[ $word == -* ]]; then
            COMPREPLY=($(compgen -W "-serial -cap -spill" -- "$word"))
        else
            _osh_files osh
        fi
        ;;
    check:0 | meaning:0 | score:0) _osh_files osh ;;
    run:1 | score:1) _osh_files cfg ;;
    esac
}

complete -F _osh osh
