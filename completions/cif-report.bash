# Completion of cif-report for bash. tests/report compares its words with the help that the program prints.

_cif_report() {
    local written=${COMP_WORDS[COMP_CWORD]} before=${COMP_WORDS[COMP_CWORD - 1]}
    local options='--from --to --holidays --drop-clashes --places --operators --title --most -o --output --cif -h --help -V --version'
    COMPREPLY=()
    case $before in
    --holidays | --places | --operators | -o | --output | --cif) compopt -o default ;;
    --from | --to | --title | --most) ;;
    *)
        if [[ $written == -* ]]; then
            mapfile -t COMPREPLY < <(compgen -W "$options" -- "$written")
        else
            compopt -o default
        fi
        ;;
    esac
}

complete -F _cif_report cif-report
