# Completion of cif-feed for bash. tests/feed compares its words with the help that the program prints.

_cif_feed() {
    local written=${COMP_WORDS[COMP_CWORD]} before=${COMP_WORDS[COMP_CWORD - 1]}
    local options='--status --json --holidays --example --cif -h --help -V --version'
    COMPREPLY=()
    case $before in
    --example) mapfile -t COMPREPLY < <(compgen -W 'nrod rdg folder url' -- "$written") ;;
    --cif) compopt -o default ;;
    *)
        if [[ $written == -* ]]; then
            mapfile -t COMPREPLY < <(compgen -W "$options" -- "$written")
        else
            compopt -o default
        fi
        ;;
    esac
}

complete -F _cif_feed cif-feed
