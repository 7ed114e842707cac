#compdef prolog-components
# Completion of zsh for prolog-components(1): options that aren't given yet, and files.
_arguments -S \
    '--order[groups in the order in which they were found]' \
    '--json[JSON Lines]' \
    '--loops[a cycle of each recursive group]' \
    '--from-json[edges as JSON Lines]' \
    '--jobs=[threads that search]:number, 1 to 64: ' \
    '*--roots=[only what this node reaches]:node:' \
    '1:text of edges:_files'
