#!/usr/bin/env bash
# package/tree.sh
# The git tree of crates/ as it stands, committed or not: once committed, `git rev-parse HEAD:crates`.
set -euo pipefail
cd "$(dirname "$0")/.."

if [ -n "$(git rev-parse --show-prefix)" ]; then
    echo "this folder is inside another checkout of git, and is none itself" >&2
    exit 1
fi

# What git writes on the way goes to a folder of its own: the checkout stays as it is.
folder=$(mktemp -d)
trap 'rm -rf "$folder"' EXIT
GIT_ALTERNATE_OBJECT_DIRECTORIES="\"$(realpath "$(git rev-parse --git-path objects)")\""
GIT_OBJECT_DIRECTORY=$folder/objects
GIT_INDEX_FILE=$folder/index
export GIT_ALTERNATE_OBJECT_DIRECTORIES GIT_OBJECT_DIRECTORY GIT_INDEX_FILE
mkdir "$GIT_OBJECT_DIRECTORY"
git read-tree HEAD
git add --all crates
git write-tree --prefix=crates/
