# Completion of cif-board for bash. tests/board compares its words with the help that the program prints.

_cif_board() {
    local written=${COMP_WORDS[COMP_CWORD]} before=${COMP_WORDS[COMP_CWORD - 1]}
    local options='--port --listen --host --open -h --help -V --version'
    COMPREPLY=()
    case $before in
    --port | --listen | --host) ;;
    *)
        if [[ $written == -* ]]; then
            mapfile -t COMPREPLY < <(compgen -W "$options" -- "$written")
        else
            compopt -o default
        fi
        ;;
    esac
}

complete -F _cif_board cif-board
