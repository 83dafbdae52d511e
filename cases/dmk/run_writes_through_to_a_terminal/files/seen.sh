test -t 1 && test -t 2 && echo "$1: terminal" || echo "$1: none"
