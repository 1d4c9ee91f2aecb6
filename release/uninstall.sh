#!/bin/sh
# Removes what install.sh put below the folder in which this lies, and the folders that are empty then.
set -eu

# Removes the folder $1 and those above it, as far as they are empty.
remove_folders() {
    folder=$1
    while rmdir "./$folder" 2>/dev/null && [ "$folder" != "${folder%/*}" ]; do folder=${folder%/*}; done
}

# The shell has read all of this before it removes this file.
uninstall() {
    prefix=$(CDPATH='' cd -- "$(dirname -- "$0")/../../.." && pwd -P)
    cd "$prefix"
    files=$(cat share/doc/crnt/installed)
    # What Python wrote beside the companions that it ran.
    [ ! -d share/doc/crnt/companions ] || find share/doc/crnt/companions -type d -name __pycache__ -prune -exec rm -rf {} +
    printf '%s\n' "$files" | while IFS= read -r file; do
        rm -f "./$file"
        remove_folders "${file%/*}"
    done
    echo "removed crnt from $prefix"
    exit
}

uninstall
