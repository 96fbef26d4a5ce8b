# Completion of cif-gtfs-csv for bash. tests/gtfs compares its words with the help that the program prints.

_cif_gtfs_csv() {
    local written=${COMP_WORDS[COMP_CWORD]} kinds='naptan-places msn-places msn-interchange alf-links'
    COMPREPLY=()
    if [[ $written == -* ]]; then
        mapfile -t COMPREPLY < <(compgen -W '-h --help -V --version' -- "$written")
    elif [[ $COMP_CWORD -eq 1 ]]; then
        mapfile -t COMPREPLY < <(compgen -W "$kinds" -- "$written")
    else
        compopt -o default
    fi
}

complete -F _cif_gtfs_csv cif-gtfs-csv
