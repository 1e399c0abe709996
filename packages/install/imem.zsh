#compdef imem
# zsh completion of imem, made of its help.
_imem() {
    local -a subcommands
    subcommands=(
@SUBCOMMANDS@
    )
    if (( CURRENT == 2 )); then
        _describe command subcommands
        _arguments @FIRST@
        return
    fi
    local subcommand=$words[2]
    shift words
    (( CURRENT-- ))
    case $subcommand in
@ROWS@
    esac
}
_imem "$@"
