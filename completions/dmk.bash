# Completion of dmk's words for bash: source it, or put it where bash-completion looks for dmk.
_dmk() {
    local word=${COMP_WORDS[COMP_CWORD]} before=${COMP_WORDS[COMP_CWORD - 1]}
    COMPREPLY=()
    # bash parts words at a `=`.
    [ "$before" != = ] || before=${COMP_WORDS[COMP_CWORD - 2]}
    [ "$word" != = ] || word=
    case $before in
        -C | --directory | -I | --include-dir) mapfile -t COMPREPLY < <(compgen -d -- "$word"); return ;;
        -f | --file | --makefile | -K | --log) mapfile -t COMPREPLY < <(compgen -f -- "$word"); return ;;
    esac
    case $word in
        -*) mapfile -t COMPREPLY < <(compgen -W '-C --directory -e --environment-overrides -f --file --makefile -I --include-dir -K -r --no-builtin-rules -R --no-builtin-variables --posix -B --always-make -i --ignore-errors -j --jobs -l --load-average --max-load -k --keep-going -S --no-keep-going --stop --trust-files -W --what-if --new-file --assume-new -o --old-file --assume-old -n --dry-run --just-print --recon -q --question -d --trace -O --output --output-sync -p --print-data-base -s --silent --quiet --no-silent --progress --log --warn-undefined --warn-undefined-variables -w --print-directory --no-print-directory -h --help -V --version' -- "$word") ;;
        *) mapfile -t COMPREPLY < <(compgen -W "$(_dmk_targets)" -- "$word"; compgen -f -- "$word") ;;
    esac
}

# The targets that stand in the makefile as they are written.
_dmk_targets() {
    local file
    for file in makefile Makefile; do
        [ -f "$file" ] || continue
        sed -n 's/^\([A-Za-z0-9_][^:=$%]*\):\([^=].*\)\{0,1\}$/\1/p' "$file"
        return
    done
}
complete -F _dmk dmk
