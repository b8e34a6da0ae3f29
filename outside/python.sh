#!/usr/bin/env bash
# outside/python.sh SHARED
# The Python binding's own tests, on a shared library.
set -uo pipefail
cd "$(dirname "$0")/.."

HARBOUR_LIBRARY=$(realpath "$1")
export HARBOUR_LIBRARY PYTHONDONTWRITEBYTECODE=1
said=$(cd bindings/python && python3 -W error -m unittest --quiet 2>&1)
status=$?
if [ "$status" -ne 0 ]; then echo "$said"; fi
echo "comparisons $(sed -n 's/^Ran \([0-9]*\) tests.*/\1/p' <<< "$said"), differed $((status != 0))"
exit "$status"
