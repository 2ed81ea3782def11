#!/bin/sh
# ./install.sh PREFIX: copies the program into PREFIX/bin, links its other names to it, and copies their pages into PREFIX/share/man/man1,
# the library and its header into PREFIX/lib and PREFIX/include, and documents, examples, editors' files and hosts of fleets into
# PREFIX/share/lus. It overwrites an older version.
set -eu
if [ $# != 1 ]; then
    echo "usage: ./install.sh PREFIX" >&2
    exit 2
fi
here=$(cd "$(dirname "$0")" && pwd)
mkdir -p "$1"
prefix=$(cd "$1" && pwd)

# put MODE FOLDER FILE..: copies files that are there
put() {
    mode=$1
    to=$prefix/$2
    shift 2
    mkdir -p "$to"
    for file; do
        if [ -f "$file" ]; then
            install -m "$mode" "$file" "$to/"
        fi
    done
}

put 755 bin "$here/lus"
for page in "$here"/man/*.1; do
    tool=$(basename "$page" .1)
    if [ "$tool" != lus ]; then
        ln -sf lus "$prefix/bin/$tool"
    fi
    put 644 share/man/man1 "$page"
done
if [ -d "$here/bindings" ]; then
    put 644 lib "$here"/bindings/*.a
    for library in "$here"/bindings/liblus.so.*; do
        put 755 lib "$library"
        ln -sf "$(basename "$library")" "$prefix/lib/liblus.so"
    done
    put 644 include "$here"/bindings/*.h
    put 644 lib/pkgconfig "$here"/bindings/lus.pc
    sed -i 's|^prefix=.*|prefix=${pcfiledir}/../..|; s|^libdir=.*|libdir=${prefix}/lib|; s|^includedir=.*|includedir=${prefix}/include|' \
        "$prefix/lib/pkgconfig/lus.pc"
    put 644 share/lus/python "$here"/bindings/*.py "$here"/bindings/*.whl
    if [ -d "$prefix/share/lus/python" ]; then
        # (lus.py looks for it there)
        ln -sf ../../../lib/liblus.so "$prefix/share/lus/python/liblus.so"
    fi
    if [ -d "$here/bindings/rust" ]; then
        rm -rf "$prefix/share/lus/rust"
        cp -R "$here/bindings/rust" "$prefix/share/lus/rust"
    fi
    if [ -d "$here/bindings/examples" ]; then
        rm -rf "$prefix/share/lus/bindings"
        cp -R "$here/bindings/examples" "$prefix/share/lus/bindings"
    fi
fi
put 644 share/lus "$here"/*.md "$here/LICENSE" "$here/VERSION" "$here/BUILD"
for folder in ftdetect ftplugin indent syntax compiler lua; do
    put 644 "share/vim/vimfiles/$folder" "$here/editors/vim/$folder"/*
done
put 644 share/emacs/site-lisp "$here"/editors/emacs/*.el
for folder in docs examples editors integrations; do
    rm -rf "$prefix/share/lus/$folder"
    cp -R "$here/$folder" "$prefix/share/lus/$folder"
done
echo "lus $(cat "$here/VERSION") is in $prefix"
