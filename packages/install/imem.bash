# bash completion of imem, made of its help.
_imem() {
    local word=${COMP_WORDS[COMP_CWORD]} before=${COMP_WORDS[COMP_CWORD-1]} words='' values='' files='' folders=''
    COMPREPLY=()
    if [ "$COMP_CWORD" -eq 1 ]; then
        mapfile -t COMPREPLY < <(compgen -W '@FIRST@' -- "$word")
        return
    fi
    case ${COMP_WORDS[1]} in
@ROWS@
        help) mapfile -t COMPREPLY < <(compgen -W '@SUBCOMMANDS@' -- "$word"); return ;;
    esac
    case " $files " in *" $before "*) compopt -o filenames; mapfile -t COMPREPLY < <(compgen -f -- "$word"); return ;; esac
    case " $folders " in *" $before "*) compopt -o filenames; mapfile -t COMPREPLY < <(compgen -d -- "$word"); return ;; esac
    case " $values " in *" $before "*) return ;; esac
    case $word in
        -*) mapfile -t COMPREPLY < <(compgen -W "$words" -- "$word") ;;
        *) compopt -o filenames; mapfile -t COMPREPLY < <(compgen -f -- "$word") ;;
    esac
}
complete -F _imem imem
