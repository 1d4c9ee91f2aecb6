#!/bin/sh
# Installs crnt with its manual page, completions, documents and examples.
#
#     ./install.sh [PREFIX]      below PREFIX, or below ~/.local: the program is PREFIX/bin/crnt
#
# What an older version put there and this one has no more is removed. PREFIX/share/doc/crnt/uninstall.sh removes all of it.
set -eu
umask 022

die() {
    echo "install.sh: $1" >&2
    exit 1
}

# Removes the folder $1 and those above it, as far as they are empty.
remove_folders() {
    folder=$1
    while rmdir "$prefix/$folder" 2>/dev/null && [ "$folder" != "${folder%/*}" ]; do folder=${folder%/*}; done
}

prefix=${1:-$HOME/.local}
case $prefix in
    /*) ;;
    *) prefix=$PWD/$prefix ;;
esac
cd "$(dirname -- "$0")"
sha256sum -c --quiet SHA256SUMS || die "a file is not as it was packed; unpack the archive again"
# With no words the program writes its usage line and ends with 4.
status=0
said=$(bin/crnt </dev/null 2>&1) || status=$?
[ $status -eq 4 ] || die "the program needs Linux on x86-64 with the GNU C library 2.34 or later, and does not run here: $said"
mkdir -p "$prefix" && [ -w "$prefix" ] || die "cannot write $prefix; name another folder: ./install.sh PREFIX"
prefix=$(CDPATH='' cd -- "$prefix" && pwd -P)

list=share/doc/crnt/installed
files=$(cut -c 67- SHA256SUMS | grep -E '^(bin|share)/' && echo "$list")
# Until all is done the list names the files of both versions, so that uninstall.sh removes them all.
older=
if [ -f "$prefix/$list" ]; then older=$(cat "$prefix/$list"); fi
mkdir -p "$prefix/${list%/*}"
printf '%s\n' "$files" ${older:+"$older"} >"$prefix/$list"
printf '%s\n' "$files" | grep -Fvx "$list" | while IFS= read -r file; do
    mkdir -p "$prefix/${file%/*}"
    cp "$file" "$prefix/$file.new"
    mv -f "$prefix/$file.new" "$prefix/$file"
done
printf '%s\n' "$older" | while IFS= read -r file; do
    if [ -n "$file" ] && ! printf '%s\n' "$files" | grep -Fqx -e "$file"; then
        rm -f "$prefix/$file"
        remove_folders "${file%/*}"
    fi
done
printf '%s\n' "$files" >"$prefix/$list"
echo "installed: $prefix/bin/crnt"
case :$PATH: in
    *:"$prefix/bin":*) ;;
    *) echo "$prefix/bin is not on your path; add it: PATH=\$PATH:$prefix/bin" ;;
esac
# This is the one shell that looks below neither ~/.local nor the folder of what is on the path.
if [ "$prefix" != /usr/local ]; then
    echo "for completions in zsh, add to ~/.zshrc above compinit: fpath=($prefix/share/zsh/site-functions \$fpath)"
fi
echo "to try it: $prefix/bin/crnt report < $prefix/share/doc/crnt/examples/networks/edelstein.crn"
echo "to remove it: $prefix/share/doc/crnt/uninstall.sh"
