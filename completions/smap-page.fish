# Completions of smap-page for fish.

complete -c smap-page -s V -l version -d 'Print the version'
complete -c smap-page -s h -l help -d 'Print help'
complete -c smap-page -l base -x -d 'URL against which the names of sources are resolved'
complete -c smap-page -l trace -r -d 'Trace with which the page opens'
