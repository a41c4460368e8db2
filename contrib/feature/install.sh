#!/bin/sh
# Installs wqd and wq in an image, from the archive beside this script, and Python if the image has none.
# PREFIX says where to, and is /usr/local if it is not set.
set -eu
here=$(cd "$(dirname "$0")" && pwd)
prefix=${PREFIX:-/usr/local}

has_python() {
    python3 -I -c 'import sys; sys.exit(sys.version_info < (3, 9))' 2> /dev/null
}

if ! has_python && command -v apt-get > /dev/null 2>&1; then
    apt-get update && apt-get install -y --no-install-recommends python3
fi
if ! has_python; then
    echo "wqd: this image has no Python 3.9 or later, which wq needs; add it, and install wqd after it" >&2
    exit 1
fi
mkdir -p "$prefix"
tar -xzf "$here/wqd.tar.gz" -C "$prefix" --strip-components=1 --no-same-owner
if ! "$prefix/bin/wqd" --version; then
    echo "wqd: the program does not run here; it needs glibc 2.34 or later and libgcc_s" >&2
    exit 1
fi
