# Completion of cif-feed for fish. tests/feed compares its words with the help that the program prints.

complete -c cif-feed -l status -d 'Say what is there, and what is missing'
complete -c cif-feed -l json -d 'With --status, as JSON'
complete -c cif-feed -l holidays -d 'List the holidays that would be taken'
complete -c cif-feed -l example -x -a 'nrod rdg folder url' -d 'Print settings to fill in'
complete -c cif-feed -l cif -r -F -d 'The program cif'
complete -c cif-feed -s h -l help -d 'Print help'
complete -c cif-feed -s V -l version -d 'Print version'
