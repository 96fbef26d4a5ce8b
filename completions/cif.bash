# Completion of cif for bash. tests/words compares its words with the help that the program prints.

# _cif_offer WORDS: offers those of the words that begin with what is written, and weren't given before
_cif_offer() {
    local word
    for word in $1; do
        if [[ $word == "$written"* && $given != *" $word "* ]]; then
            COMPREPLY+=("$front$word")
        fi
    done
}

_cif() {
    local IFS=$' \t\n' commands='normalise check compare diff day train explain clashes table calendar departures arrivals prepare update help'
    local command='' options='' places=0 given=' ' front='' written=${COMP_WORDS[COMP_CWORD]}
    # the option whose value comes next, and whether -- has ended the options
    local awaited='' ended='' word i
    COMPREPLY=()

    for ((i = 1; i < COMP_CWORD; i++)); do
        word=${COMP_WORDS[i]}
        if [[ -n $awaited ]]; then
            # bash takes --form=1 for three words
            [[ $word == = ]] || awaited=''
        elif [[ -z $ended && $word == -- ]]; then
            ended=yes
        elif [[ -z $ended && $word == -?* ]]; then
            given+="${word%%=*} "
            case $word in
            --from | --to | --form | --format | --holidays | --calling-at) awaited=$word ;;
            esac
        elif [[ -z $command ]]; then
            command=$word
        else
            places=$((places + 1))
        fi
    done
    if [[ -n $awaited && $written == = ]]; then
        written=''
    elif [[ -z $awaited$ended && $written == --*=* ]]; then
        awaited=${written%%=*}
        front=$awaited=
        written=${written#*=}
    fi

    if [[ -n $awaited ]]; then
        case $awaited in
        --form) _cif_offer '1 2 3' ;;
        --format)
            case $command in
            table | prepare) _cif_offer 'tsv json' ;;
            *) _cif_offer 'text tsv json' ;;
            esac
            ;;
        --holidays) compopt -o default ;;
        esac
        return
    fi
    if [[ -z $ended && $written == -* ]]; then
        case $command in
        '') options='-h --help -V --version' ;;
        normalise) options='-v --verbose --from --to --form -h --help' ;;
        table) options='-v --verbose --from --to --form --format -h --help' ;;
        check) options='-v --verbose --from --to --form --all -h --help' ;;
        train) options='-v --verbose --from --to --form --stops --format -h --help' ;;
        compare) options='-v --verbose --from --to --common -h --help' ;;
        diff) options='-v --verbose --from --to --common --format -h --help' ;;
        clashes | calendar) options='-v --verbose --from --to --format -h --help' ;;
        day) options='-v --verbose --stops --format -h --help' ;;
        explain) options='-v --verbose --format -h --help' ;;
        departures) options='-v --verbose --calling-at --format -h --help' ;;
        arrivals) options='-v --verbose --format -h --help' ;;
        prepare) options='-v --verbose --holidays --drop-clashes --winners --format -h --help' ;;
        update) options='-v --verbose --lenient --in-sequence -h --help' ;;
        esac
        _cif_offer "$options"
        return
    fi
    case $command:$places in
    :0 | help:0) _cif_offer "$commands" ;;
    normalise:0 | check:0 | compare:[01] | diff:[01]) compopt -o default ;;
    day:1 | train:1 | explain:2 | departures:2 | arrivals:2 | clashes:0) compopt -o default ;;
    table:0) _cif_offer 'header tiplocs associations schedules calls changes public' ;;
    table:1 | calendar:1 | prepare:0 | update:*) compopt -o default ;;
    esac
}

complete -F _cif cif
