# Completion of cif-report for fish. tests/report compares its words with the help that the program prints.

complete -c cif-report -l from -x -d 'First date of the window'
complete -c cif-report -l to -x -d 'Last date of the window'
complete -c cif-report -l holidays -r -F -d 'Dates of the holiday codes'
complete -c cif-report -l drop-clashes -d 'Leave out what has a clash, on its dates'
complete -c cif-report -l places -r -F -d 'Names and coordinates'
complete -c cif-report -l operators -r -F -d 'Names of operators'
complete -c cif-report -l title -x -d 'The title of the page'
complete -c cif-report -l most -x -d 'How many changed trains the page has at most'
complete -c cif-report -s o -l output -r -F -d 'The page to write'
complete -c cif-report -l cif -r -F -d 'The program cif'
complete -c cif-report -s h -l help -d 'Print help'
complete -c cif-report -s V -l version -d 'Print version'
