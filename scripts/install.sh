#!/bin/bash
# install.sh [--remove] [PREFIX]: puts the programs of bin/, stripped, with man pages, completions and documents below PREFIX
# (/usr/local), or takes out again what it has put there, which stands in PREFIX/share/dmk/installed. With DESTDIR all lies below
# that folder. PROGRAMS names another folder than bin/.
set -eu
umask 022
die() {
    echo "install.sh: $1" >&2
    exit 1
}
# full FOLDER: its name from the root, without a slash at its end.
full() {
    case $1 in
        /*) printf %s "${1%/}" ;;
        *) printf %s "$PWD/${1%/}" ;;
    esac
}

remove='' prefix=''
for word; do
    case $word in
        --remove) remove=yes ;;
        -* | '') die "usage: install.sh [--remove] [PREFIX]" ;;
        *) [ -z "$prefix" ] || die "one PREFIX"; prefix=$word ;;
    esac
done
prefix=$(full "${prefix:-/usr/local}")
root=${DESTDIR:+$(full "$DESTDIR")}
programs=${PROGRAMS:+$(full "$PROGRAMS")}
cd "$(dirname "$0")/.."
programs=${programs:-$PWD/bin}
list=$prefix/share/dmk/installed

# take_out: removes the files of the list, and the folders that were made for them where nothing else is in them.
take_out() {
    local -a names
    local name
    mapfile -t names < <(tac "$root$list")
    for name in "${names[@]}"; do
        case $name in
            */) [ ! -d "$root$name" ] || rmdir --ignore-fail-on-non-empty -- "$root$name" ;;
            *) rm -f -- "$root$name" ;;
        esac
    done
}

if [ -n "$remove" ]; then
    [ -f "$root$list" ] || die "nothing is recorded below $root$prefix: $root$list isn't there"
    take_out
    echo "removed from $root$prefix"
    exit
fi

# placed: for each file its place below the prefix, its mode and what it is made of.
placed() {
    local name
    for name in dmk dmk_state dmk_tool; do
        echo "bin/$name 755 $programs/$name"
    done
    for name in man/*.[1-9]; do
        echo "share/man/man${name##*.}/${name#man/} 644 $name"
    done
    for name in share/dmk/*; do
        echo "$name 755 $name"
    done
    echo "share/bash-completion/completions/dmk 644 completions/dmk.bash"
    echo "share/bash-completion/completions/dmk_tool 644 completions/dmk_tool.bash"
    echo "share/zsh/site-functions/_dmk 644 completions/_dmk"
    echo "share/zsh/site-functions/_dmk_tool 644 completions/_dmk_tool"
    # What git doesn't know, as what an example has made, is no document. A tarball has no git, and all of it counts.
    local -a parts=(README.md CHANGELOG.md CONTRIBUTING.md docs examples crates/*/GUARANTEES.md cases/*/README.md)
    { git ls-files "${parts[@]}" 2>/dev/null | grep . || find "${parts[@]}" -type f 2>/dev/null; } |
        sed 's|.*|share/doc/dmk/& 644 &|'
}

for name in dmk dmk_state dmk_tool; do
    [ -x "$programs/$name" ] || die "no program $programs/$name: scripts/build.sh builds it"
done
[ ! -f "$root$list" ] || take_out
mapfile -t files < <(placed)
places=("${files[@]%% *}" share/dmk/installed)

# The list is written before any file, so that what was cut off can be taken out too.
made=$(for place in "${places[@]}"; do
    name=$prefix/$place
    while name=${name%/*}; [ -n "$name" ] && [ ! -d "$root$name" ]; do
        echo "$name/"
    done
done | LC_ALL=C sort -u)
mkdir -p "$root$prefix/share/dmk"
{
    [ -z "$made" ] || printf '%s\n' "$made"
    printf '%s\n' "${places[@]}" | while read -r place; do echo "$prefix/$place"; done
} >"$root$list"

for file in "${files[@]}"; do
    read -r place mode source <<<"$file"
    install -D -m "$mode" -- "$source" "$root$prefix/$place"
done
if command -v strip >/dev/null; then
    strip "$root$prefix"/bin/{dmk,dmk_state,dmk_tool}
else
    echo "install.sh: there is no strip here: the programs are as they were built" >&2
fi
echo "installed below $root$prefix: ${#files[@]} files"
