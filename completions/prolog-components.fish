# Completion of fish for prolog-components(1): options that aren't given yet, and files.
complete -c prolog-components -n 'not __fish_seen_argument -l json' -l json -d 'JSON Lines'
complete -c prolog-components -n 'not __fish_seen_argument -l loops' -l loops -d 'a cycle of each recursive group'
complete -c prolog-components -n 'not __fish_seen_argument -l from-json' -l from-json -d 'edges as JSON Lines'
complete -c prolog-components -n 'not __fish_seen_argument -l jobs' -l jobs -x -d 'threads that search, 1 to 64'
complete -c prolog-components -l roots -x -d 'only what this node reaches'
complete -c prolog-components -n 'not __fish_seen_argument -l order' -l order -d 'groups in the order in which they were found'
