# Completion of fish for prolog-calls(1): options that aren't given yet, and Prolog files.
for command in prolog-calls prolog-calls-swi
    complete -c $command -f -a '(__fish_complete_suffix .pl)'
    for option in 'roots -x:entry points, as m:p/2,q/0' \
            'unreached:also what no entry point reaches' \
            'undefined:only calls of undefined predicates' \
            'dot:a graph for Graphviz in place of JSON' \
            'condensed:with --dot a node for each component'
        set -l parts (string split -m 1 : -- $option)
        set -l name (string split ' ' -- $parts[1])
        complete -c $command -n "not __fish_seen_argument -l $name[1]" -l $name[1] $name[2] -d $parts[2]
    end
end
for option in 'libraries:also libraries, and what SWI-Prolog loads by itself' \
        'no-run:runs no condition that asks for more than flags' \
        'expand:grammar rules as the clauses that they mean'
    set -l parts (string split -m 1 : -- $option)
    complete -c prolog-calls-swi -n "not __fish_seen_argument -l $parts[1]" -l $parts[1] -d $parts[2]
end
