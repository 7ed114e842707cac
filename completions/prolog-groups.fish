# Completion of fish for prolog-groups(1): options that aren't given yet, and Prolog files.
for command in prolog-groups prolog-groups-swi
    complete -c $command -f -a '(__fish_complete_suffix .pl)'
    for option in 'jobs -x:threads that search, 1 to 64' \
            'searches -x:searches in turns on one thread' \
            'seed -x:where their schedule begins' \
            'roots -x:entry points, as m:p/2,q/0' \
            'order:groups in the order in which they were found' \
            'stream:with --order, heights during the search' \
            'unreached:also predicates that no entry point reaches' \
            'effects:also side effects of groups' \
            'loops:also a shortest cycle in each group' \
            'path -x:also a shortest call path, as m:p/2,q/0' \
            'make -x:a generated program of so many predicates'
        set -l parts (string split -m 1 : -- $option)
        set -l name (string split ' ' -- $parts[1])
        complete -c $command -n "not __fish_seen_argument -l $name[1]" -l $name[1] $name[2] -d $parts[2]
    end
end
for option in 'libraries:also libraries, and what SWI-Prolog loads by itself' \
        'no-run:runs no condition that asks for more than flags' \
        'expand:grammar rules as the clauses that they mean'
    set -l parts (string split -m 1 : -- $option)
    complete -c prolog-groups-swi -n "not __fish_seen_argument -l $parts[1]" -l $parts[1] -d $parts[2]
end
