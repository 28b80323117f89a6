# Completion of witcall for fish: the commands, --with, and files.
complete -c witcall -n __fish_use_subcommand -f -a show -d 'what the package has'
complete -c witcall -n __fish_use_subcommand -f -a layout -d 'sizes, alignments and core signatures'
complete -c witcall -n __fish_use_subcommand -f -a text -d 'the package as canonical text'
complete -c witcall -n __fish_use_subcommand -f -a bin -d 'the package as a binary'
complete -c witcall -n __fish_use_subcommand -f -a call -d 'call a function'
complete -c witcall -n 'not __fish_use_subcommand' -l with -r -F -d 'a package that a later one uses'
