#compdef prolog-calls prolog-calls-swi
# Completion of zsh for prolog-calls(1): options that aren't given yet, and Prolog files.
local -a bridge=()
if [[ $service == *-swi ]]; then
    bridge+=('--libraries[also libraries, and what SWI-Prolog loads by itself]')
    bridge+=('--no-run[runs no condition that asks for more than flags]')
    bridge+=('--expand[grammar rules as the clauses that they mean]')
fi
_arguments -S $bridge \
    '--roots=[entry points]:predicates, as m\:p/2,q/0: ' \
    '--unreached[also what no entry point reaches]' \
    '(--dot --condensed)--undefined[only calls of undefined predicates]' \
    '(--undefined)--dot[a graph for Graphviz in place of JSON]' \
    '(--undefined)--condensed[with --dot a node for each component]' \
    '*:Prolog file:_files -g "*.pl(-.)"'
