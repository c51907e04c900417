#!/bin/sh
# Runs cores.py from a checkout: sh examples/dask/run.sh [--spoil] [..], with the python3 that PYTHON names, or Debian's.
# Where build/ has no library and KCORE_LIBRARY names none, the packed one of dist/ is unpacked, or with the kit one is made.
set -eu
top=$(cd "$(dirname "$0")/../.." && pwd)
[ -n "${KCORE_LIBRARY:-}" ] || [ -e "$top/build/libkcore.so" ] || sh "$top/dist/library.sh" > /dev/null || {
    command -v rt > /dev/null && "$top/c/build.sh" > /dev/null
}
PYTHONPATH=$top/python${PYTHONPATH:+:$PYTHONPATH} exec "${PYTHON:-/usr/bin/python3}" "$top/examples/dask/cores.py" "$@"
