# Completion of cif-gtfs-csv for fish. tests/gtfs compares its words with the help that the program prints.

complete -c cif-gtfs-csv -n '__fish_is_nth_token 1' -f -a 'naptan-places msn-places msn-interchange alf-links'
complete -c cif-gtfs-csv -s h -l help -d 'Print help'
complete -c cif-gtfs-csv -s V -l version -d 'Print version'
