#!/bin/sh
# Installs what the archive holds: libraries, header, pkg-config file, programs, manual pages, guide, Rust crate and the sources of the Python package, which PREFIX/share/cottontuff/python/install installs.
#   ./install.sh [PREFIX]     default /usr/local
set -e
prefix=${1:-/usr/local}
[ $# -lt 2 ] || { echo "install.sh: one folder at most" >&2; exit 2; }
[ "$(uname -sm)" = "Linux x86_64" ] || { echo "install.sh: this is for Linux on x86-64" >&2; exit 1; }
cd "$(dirname "$0")"
mkdir -p "$prefix"
prefix=$(cd "$prefix" && pwd)
cp -R files/. "$prefix"
sed -i "s|^prefix=.*|prefix=$prefix|" "$prefix/lib/pkgconfig/cottontuff.pc"
echo "installed into $prefix"
