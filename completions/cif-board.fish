# Completion of cif-board for fish. tests/board compares its words with the help that the program prints.

complete -c cif-board -l port -x -d 'The port'
complete -c cif-board -l listen -x -d 'The address to listen on'
complete -c cif-board -l host -x -d 'A further name for this machine'
complete -c cif-board -l open -d 'Open the first page in a browser'
complete -c cif-board -s h -l help -d 'Print help'
complete -c cif-board -s V -l version -d 'Print version'
