# Completion of cif-sql for bash. tests/sql compares its words with the help that the program prints.

_cif_sql() {
    local written=${COMP_WORDS[COMP_CWORD]} before=${COMP_WORDS[COMP_CWORD - 1]}
    local options='--from --to --holidays --drop-clashes --places --operators --postgres --schema --force -o --output -v --verbose --verify --date --place --cif -h --help -V --version'
    COMPREPLY=()
    case $before in
    --holidays | --places | --operators | -o | --output | --verify | --cif) compopt -o default ;;
    --from | --to | --schema | --date | --place) ;;
    *)
        if [[ $written == -* ]]; then
            mapfile -t COMPREPLY < <(compgen -W "$options" -- "$written")
        else
            compopt -o default
        fi
        ;;
    esac
}

complete -F _cif_sql cif-sql
