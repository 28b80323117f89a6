# Completion of wit-explain for fish: the commands, the options, and files.
complete -c wit-explain -n __fish_use_subcommand -f -a check -d 'show the faults of files'
complete -c wit-explain -n __fish_use_subcommand -f -a format -d 'lay files out'
complete -c wit-explain -n __fish_use_subcommand -f -a show -d 'show what packages have'
complete -c wit-explain -n __fish_use_subcommand -f -a text -d 'print a package as canonical text'
complete -c wit-explain -n __fish_use_subcommand -f -a bin -d 'write a package as a binary'
complete -c wit-explain -n __fish_use_subcommand -f -a encode \
    -d 'write a package or a world as the binary of other tools'
complete -c wit-explain -n __fish_use_subcommand -f -a embed -d 'write a core module with its world'
complete -c wit-explain -n __fish_use_subcommand -f -a decode -d 'print the packages of a binary of another tool'
complete -c wit-explain -n __fish_use_subcommand -f -a layout -d 'draw the bytes of types'
complete -c wit-explain -n __fish_use_subcommand -f -a diff -d 'tell what changed between two versions of a package'
complete -c wit-explain -n __fish_use_subcommand -f -a call -d 'show what a call does to both memories'
complete -c wit-explain -n __fish_use_subcommand -f -a bind \
    -d 'write a header for C or for a guest in C, or declarations for TypeScript'
complete -c wit-explain -n __fish_use_subcommand -f -l version -d 'print the version'
complete -c wit-explain -f -l help -d 'print the help'
complete -c wit-explain -n 'not __fish_use_subcommand' -l color -x -a 'auto always never' -d 'when faults are colored'
complete -c wit-explain -n '__fish_seen_subcommand_from check' -l json -d 'print the faults as JSON'
complete -c wit-explain -n '__fish_seen_subcommand_from format' -l check -d 'write no file'
complete -c wit-explain -n '__fish_seen_subcommand_from show layout' -l json -d 'print all of it as one JSON document'
complete -c wit-explain -n '__fish_seen_subcommand_from encode' -l world -x -d 'encode this world alone'
complete -c wit-explain -n '__fish_seen_subcommand_from embed' -l world -x -d 'the world of the module'
complete -c wit-explain -n '__fish_seen_subcommand_from bind; and __fish_seen_subcommand_from guest' -l world -x \
    -d 'the world of the guest'
complete -c wit-explain -n '__fish_seen_subcommand_from bin encode embed' -s o -l output -r -F \
    -d 'the file of the binary'
complete -c wit-explain -n '__fish_seen_subcommand_from layout call' -l svg -r -F -d 'write an SVG picture'
complete -c wit-explain -n '__fish_seen_subcommand_from bind; and not __fish_seen_subcommand_from c guest ts python' \
    -f -a c -d 'the language C'
complete -c wit-explain -n '__fish_seen_subcommand_from bind; and not __fish_seen_subcommand_from c guest ts python' \
    -f -a guest -d 'a guest in C'
complete -c wit-explain -n '__fish_seen_subcommand_from bind; and not __fish_seen_subcommand_from c guest ts python' \
    -f -a ts -d 'TypeScript'
complete -c wit-explain -n '__fish_seen_subcommand_from bind; and not __fish_seen_subcommand_from c guest ts python' \
    -f -a python -d 'Python'
