#!/bin/sh
# Builds the package's extension beside its sources, of the proved archive or of an installed libcapgauze, so that Python finds the
# package with PYTHONPATH=bindings/python. PYTHON is an x86-64 one that has cffi and setuptools.
set -eu
cd "$(dirname "$0")"
RUN=
if [ "$(uname -m)" != x86_64 ]; then
    . ../../tools/x86-64.sh
    export CC
fi
made=$(mktemp -d)
trap 'rm -rf "$made"' EXIT
$RUN "${PYTHON:-/usr/bin/python3}" setup.py --quiet build_ext --inplace --build-temp "$made"
echo "built bindings/python/capgauze"
