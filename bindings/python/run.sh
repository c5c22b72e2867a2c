#!/bin/sh
# Builds the package and runs its tests. PYTHON is an x86-64 one that has cffi, pytest and hypothesis, and numpy, pandas, xarray, netCDF4,
# matplotlib, dask and distributed, where those parts are to be tried. Words behind it are pytest's.
set -eu
here=$(cd "$(dirname "$0")" && pwd)
root=$here/../..
. "$root/tools/x86-64.sh"
if [ ! -f "${CAPGAUZE_ARCHIVE:-$root/target/staticlib/libcapgauze_c.a}" ] && ! pkg-config --exists capgauze 2>/dev/null; then
    archive
fi
"$here/build.sh"
cd "$here"
exec $RUN "${PYTHON:-/usr/bin/python3}" -m pytest "$@"
