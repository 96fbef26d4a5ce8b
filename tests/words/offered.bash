# offered.bash COMPLETION WORD..: prints what the completion of bash offers for `cif WORD..` with the cursor after the
# last word, one per line; `files` if it leaves that to bash, which then offers file names
completion=$1
shift
. "$completion" || exit 2
registered=$(complete -p cif) || exit 2
function=${registered#complete -F }
function=${function% cif}

# This replaces bash's own, which isn't allowed outside a completion.
compopt() {
    case $* in
    "-o default") echo files ;;
    *) exit 2 ;;
    esac
}

COMP_WORDS=(cif "$@")
COMP_CWORD=$#
COMPREPLY=()
"$function" cif "${COMP_WORDS[COMP_CWORD]}" "${COMP_WORDS[COMP_CWORD - 1]}"
for word in "${COMPREPLY[@]}"; do
    printf '%s\n' "$word"
done
