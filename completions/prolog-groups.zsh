#compdef prolog-groups prolog-groups-swi
# Completion of zsh for prolog-groups(1): options that aren't given yet, and Prolog files.
local -a bridge=()
if [[ $service == *-swi ]]; then
    bridge+=('--libraries[also libraries, and what SWI-Prolog loads by itself]')
    bridge+=('--no-run[runs no condition that asks for more than flags]')
    bridge+=('--expand[grammar rules as the clauses that they mean]')
fi
_arguments -S $bridge \
    '(--searches --seed --jobs)--jobs=[threads that search]:number, 1 to 64: ' \
    '(--jobs --searches)--searches=[searches in turns on one thread]:number, 1 to 64: ' \
    '(--jobs --seed)--seed=[where their schedule begins]:number: ' \
    '(--make --roots)--roots=[entry points]:predicates, as m\:p/2,q/0: ' \
    '(--make --order)--order[groups in the order in which they were found]' \
    '(--make --searches --stream)--stream[with --order, heights during the search]' \
    '(--make --unreached)--unreached[also predicates that no entry point reaches]' \
    '(--make --effects)--effects[also side effects of groups]' \
    '(--make --loops)--loops[also a shortest cycle in each group]' \
    '(--make --path)--path=[also a shortest call path]:two predicates, as m\:p/2,q/0: ' \
    '(--roots --order --stream --unreached --effects --loops --path --make *)--make=[a generated program]:number of predicates: ' \
    '(--make)*:Prolog file:_files -g "*.pl(-.)"'
