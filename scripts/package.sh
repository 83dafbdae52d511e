#!/bin/bash
# package.sh [FOLDER]: makes dmk_VERSION_ARCHITECTURE.deb and dmk-VERSION-linux-MACHINE.tar.gz in FOLDER (bin/packages) of the
# programs in bin/, or in the folder that PROGRAMS names. The version is that of the programs, and has to be CHANGELOG's newest;
# while that begins with 'Unreleased', day and name of the last commit stand behind it. The maintainer is git's user. The same files
# and the same maintainer give the same packages, byte for byte.
set -eu -o pipefail
umask 022
export LC_ALL=C TZ=UTC
die() {
    echo "package.sh: $1" >&2
    exit 1
}

programs=$(realpath "${PROGRAMS:-$(dirname "$0")/../bin}")
to=$(realpath -m "${1:-$(dirname "$0")/../bin/packages}")
cd "$(dirname "$0")/.."
for tool in dpkg-deb objdump strip gzip tar; do
    command -v $tool >/dev/null || die "there is no $tool here"
done
for name in dmk dmk_state dmk_tool; do
    [ -x "$programs/$name" ] || die "no program $programs/$name: scripts/build.sh builds it"
done
version=$("$programs/dmk" --version)
version=${version#dmk }
for name in dmk_state dmk_tool; do
    [ "$("$programs/$name" --version)" = "$name $version" ] || die "dmk is $version, and $name isn't"
done
released=$(sed -n "s/^## $version, //p" CHANGELOG.md)
newest=$(grep -m 1 '^## ' CHANGELOG.md)
if [ "$newest" = "## Unreleased" ]; then
    commit() { git log -1 --date="format-local:$1" --format="$2"; }
    released=$(commit '%-d %B %Y' %cd) version=$version+$(commit %Y%m%d %cd.%h) || die "there is no commit here, and no release"
elif [ "$newest" != "## $version, $released" ]; then
    die "dmk is $version, and CHANGELOG's newest version isn't"
fi
maintainer="$(git config user.name) <$(git config user.email)>" || die "git has no user.name and user.email for the maintainer"
architecture=$(dpkg --print-architecture)
export SOURCE_DATE_EPOCH
SOURCE_DATE_EPOCH=$(date -d "$released" +%s)

# What the programs want of the system is the C library: of which version, the newest symbol says.
needed=$(objdump -p "$programs"/{dmk,dmk_state,dmk_tool} | awk '$1 == "NEEDED" { print $2 }' | sort -u)
newest=$(objdump -T "$programs"/{dmk,dmk_state,dmk_tool} 2>/dev/null | grep -o 'GLIBC_[0-9.]*' | sort -V | tail -n 1 || true)
case $needed in
    '') depends='' linked="static programs" ;;
    libc.so.6) depends="Depends: libc6 (>= ${newest#GLIBC_})" linked="programs that want glibc ${newest#GLIBC_} or later" ;;
    *) die "the programs want more than the C library: ${needed//$'\n'/ }" ;;
esac

room=$(mktemp -d)
trap 'rm -rf "$room"' EXIT
mkdir -p "$to"

# The package: what install.sh puts below /usr, in Debian's places. A version without a revision is that of a native package,
# whose changelog, in Debian's form, is changelog.gz.
root=$room/root doc=$room/root/usr/share/doc/dmk
DESTDIR=$root PROGRAMS=$programs bash scripts/install.sh /usr >"$room/said"
rm "$root/usr/share/dmk/installed"
mv "$root/usr/share/zsh/site-functions" "$root/usr/share/zsh/vendor-completions"
strip --remove-section=.comment --remove-section=.note "$root"/usr/bin/*
gzip -9n "$root"/usr/share/man/man?/*
cat >"$doc/copyright" <<END
Format: https://www.debian.org/doc/packaging-manuals/copyright-format/1.0/
Upstream-Name: dmk

Files: *
Copyright: ${released##* } the authors of dmk
License: none-yet
 There is no licence yet: that is the owner's to choose. Until then nobody
 is given leave to copy, change or hand on these files.
END
gzip -9n >"$doc/changelog.gz" <<END
dmk ($version) unstable; urgency=medium

  * Version $version. What has changed stands in CHANGELOG.md.

 -- $maintainer  $(date -R -d "$released")
END
mkdir "$root/DEBIAN"
cat >"$root/DEBIAN/control" <<END
Package: dmk
Version: $version
Section: devel
Priority: optional
Architecture: $architecture
Maintainer: $maintainer
Installed-Size: $(du -sk --apparent-size --exclude=DEBIAN "$root" | cut -f1)
${depends:+$depends
}Suggests: python3, strace
Description: parallel make that never takes a half-made target for a finished one
 dmk makes targets by the rules of a makefile, several at once, and keeps in
 a state file what each recipe was and which of them ended. So a target is
 made again where its recipe has changed, and where a run was killed or the
 power was cut in the midst of it, whatever the times of files say.
 .
 dmk_state lists what a state file remembers, and dmk_tool answers questions
 to it.
END
(cd "$root" && find usr -type f -print0 | sort -z | xargs -0 md5sum) >"$root/DEBIAN/md5sums"
package=$to/dmk_${version}_$architecture.deb
dpkg-deb --root-owner-group -Zxz --build "$root" "$package" >"$room/said"
echo "$package: ${depends:-no dependency}"

# The tarball: what scripts/install.sh reads, so that it installs from there too.
name=dmk-$version-linux-$(uname -m) top=$room/tarball
mkdir -p "$top/bin" "$top/scripts"
cp "$root"/usr/bin/* "$top/bin/"
cp scripts/install.sh "$top/scripts/"
cp -r man completions share "$top/"
find "$doc" -mindepth 1 -maxdepth 1 ! -name changelog.gz -exec cp -r -t "$top" {} +
tar -C "$top" --sort=name --transform="s|^\.|$name|" --mtime="@$SOURCE_DATE_EPOCH" --owner=0 --group=0 --numeric-owner \
    --mode=go-w -cf - . | gzip -9n >"$to/$name.tar.gz"
echo "$to/$name.tar.gz: $linked"
[ -z "$needed" ] || echo "the toolchain links no static program: its rattle-link links dynamically"
