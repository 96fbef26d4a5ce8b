# Completion of cif for fish. tests/words compares its words with the help that the program prints.

# The words so far that are no options: the command, and what stands after it.
function __cif_places
    set -l words (commandline -opc)
    set -l awaited no
    set -l ended no
    set -e words[1]
    for word in $words
        if test $awaited = yes
            set awaited no
        else if test $ended = no; and test "$word" = --
            set ended yes
        else if test $ended = no; and contains -- $word --from --to --form --format --holidays --calling-at
            set awaited yes
        else if test $ended = yes; or not string match -q -- '-?*' $word
            printf '%s\n' $word
        end
    end
end

# __cif_at COUNT COMMANDS..: whether the command is one of these, and so many words stand after it.
function __cif_at
    set -l places (__cif_places)
    test (count $places) -eq (math $argv[1] + 1); and contains -- $places[1] $argv[2..]
end

# __cif_from COUNT COMMANDS..: whether the command is one of these, and so many words stand after it or more.
function __cif_from
    set -l places (__cif_places)
    test (count $places) -gt $argv[1]; and contains -- $places[1] $argv[2..]
end

# __cif_in COMMANDS..: whether the command is one of these.
function __cif_in
    set -l places (__cif_places)
    set -q places[1]; and contains -- $places[1] $argv
end

function __cif_without_command
    set -l places (__cif_places)
    not set -q places[1]
end

complete -c cif -f
complete -c cif -n __cif_without_command -a normalise -d 'Write the canonical extract'
complete -c cif -n __cif_without_command -a check -d 'Count the records of the canonical extract'
complete -c cif -n __cif_without_command -a compare -d 'Say whether two extracts differ, and where first'
complete -c cif -n __cif_without_command -a diff -d 'List all differences of two extracts'
complete -c cif -n __cif_without_command -a day -d 'List the associations and the trains of one date'
complete -c cif -n __cif_without_command -a train -d 'List the schedules of one train'
complete -c cif -n __cif_without_command -a explain -d 'Say why a train runs on a date'
complete -c cif -n __cif_without_command -a clashes -d 'List the clashes of an extract'
complete -c cif -n __cif_without_command -a table -d 'Write a table of the canonical extract'
complete -c cif -n __cif_without_command -a calendar -d 'Show on which dates a train runs'
complete -c cif -n __cif_without_command -a departures -d 'List what leaves from a place on a date'
complete -c cif -n __cif_without_command -a arrivals -d 'List what arrives at a place on a date'
complete -c cif -n __cif_without_command -a prepare -d 'Make an extract of a published one'
complete -c cif -n __cif_without_command -a update -d 'Apply update extracts to a full extract'
complete -c cif -n __cif_without_command -a help -d 'Print the help of the program or of a command'
complete -c cif -n __cif_without_command -s h -l help -d 'Print help'
complete -c cif -n __cif_without_command -s V -l version -d 'Print the version'

complete -c cif -n '__cif_in normalise check compare diff train clashes table calendar' -l from -x -d 'First date of the window, YYMMDD or YYYY-MM-DD'
complete -c cif -n '__cif_in normalise check compare diff train clashes table calendar' -l to -x -d 'Last date of the window, YYMMDD or YYYY-MM-DD'
complete -c cif -n '__cif_in compare diff' -l common -d 'Use the common window'
complete -c cif -n '__cif_in day train' -l stops -d 'List the calls of each train too'
complete -c cif -n '__cif_in diff day train explain clashes calendar departures arrivals' -l format -x -a 'text tsv json' -d 'Layout'
complete -c cif -n '__cif_in table' -l format -x -a 'tsv json' -d 'Layout'
complete -c cif -n '__cif_in prepare' -l format -x -a 'tsv json' -d 'Layout of --winners'
complete -c cif -n '__cif_in departures' -l calling-at -x -d 'Only trains that call at this place later'
complete -c cif -n '__cif_in check' -l all -d 'Judge each line by itself, and count the reasons'
complete -c cif -n '__cif_in normalise check train table' -l form -x -a '1 2 3' -d 'Form of records'
complete -c cif -n '__cif_in prepare' -l holidays -r -F -d 'Dates of the holiday codes'
complete -c cif -n '__cif_in prepare' -l drop-clashes -d 'Leave out what has a clash, on its dates'
complete -c cif -n '__cif_in prepare' -l winners -d 'Write which published record decides each date'
complete -c cif -n '__cif_in update' -l lenient -d 'Go on if an update or a line of it does not fit'
complete -c cif -n '__cif_in update' -l in-sequence -d 'With --lenient, refuse an update that does not follow'
complete -c cif -n '__cif_in normalise check compare diff day train explain clashes table calendar departures arrivals prepare update' -s v -l verbose -d 'Say more on standard error'
complete -c cif -n '__cif_in normalise check compare diff day train explain clashes table calendar departures arrivals prepare update' -s h -l help -d 'Print help'

complete -c cif -n '__cif_at 0 normalise check compare diff clashes prepare' -F
complete -c cif -n '__cif_at 0 table' -a 'header tiplocs associations schedules calls changes public'
complete -c cif -n '__cif_at 1 compare diff day train table calendar' -F
complete -c cif -n '__cif_at 2 explain departures arrivals' -F
complete -c cif -n '__cif_from 0 update' -F
complete -c cif -n '__cif_at 0 help' -a 'normalise check compare diff day train explain clashes table calendar departures arrivals prepare update help'
