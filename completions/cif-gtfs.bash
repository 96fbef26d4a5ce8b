# Completion of cif-gtfs for bash. tests/gtfs compares its words with the help that the program prints.

_cif_gtfs() {
    local written=${COMP_WORDS[COMP_CWORD]} before=${COMP_WORDS[COMP_CWORD - 1]}
    local options='--places --operators --interchange --links --from --to --holidays --drop-clashes --extended-types --whole-trains'
    options+=' --processes'
    options+=' --publisher --url --email --attribution --trips --places-wanted --verify -o --output --cif -h --help -V --version'
    COMPREPLY=()
    case $before in
    --holidays | --places | --operators | --interchange | --links | --trips | --places-wanted | --verify | -o | --output | --cif) compopt -o default ;;
    --from | --to | --processes | --publisher | --url | --email | --attribution) ;;
    *)
        if [[ $written == -* ]]; then
            mapfile -t COMPREPLY < <(compgen -W "$options" -- "$written")
        else
            compopt -o default
        fi
        ;;
    esac
}

complete -F _cif_gtfs cif-gtfs
