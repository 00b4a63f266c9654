#!/usr/bin/env bash
# Makes libdeiruska of the archive that the toolchain's compiler leaves, or puts it in place.
#
#     [LIBDIR=lib] tools/library.sh make ARCHIVE FOLDER [PREFIX]
#                                           FOLDER/lib and FOLDER/include, for use below PREFIX
#     [LIBDIR=lib] tools/library.sh install DESTDIR PREFIX
#                                           the same below DESTDIR/PREFIX, with its document, manual page and examples
#
# FOLDER is PREFIX where none is named. It takes the toolchain, a C compiler and binutils; what `make` has made is
# put in place without them. Of the library's symbols the functions of include/deiruska.h alone are visible: in the
# shared object, and to who links the static library.
set -eu
cd "$(dirname "${BASH_SOURCE[0]}")/.."
built=build/libmilter_c.a
made=build/deiruska
libdir=${LIBDIR:-lib}
number=$(sed -n 's/^#define DEIRUSKA_VERSION //p' include/deiruska.h)
version=$((number >> 16)).$((number >> 8 & 255)).$((number & 255))
soname=libdeiruska.so.$((number >> 16))

# Prints which symbols the shared object has for others.
symbols() {
    cat <<END
DEIRUSKA_$((number >> 16)) {
  global: deiruska_*;
  local: *;
};
END
}

# Prints what pkg-config knows of the library below the folder $1.
pkg_config() {
    cat <<END
prefix=$1
libdir=\${prefix}/$libdir
includedir=\${prefix}/include

Name: deiruska
Description: both ends of the milter protocol, without input and output
Version: $version
Libs: -L\${libdir} -ldeiruska
Cflags: -I\${includedir}
END
}

# Makes one object of the archive $1 and the kit's allocation functions, in the folder $2.
joined() {
    local kit
    kit=$(dirname "$(rt doc)")
    cp "$1" "$2/proved.a"
    cp "$kit/c/liblibc_c.a" "$2/heap.a"
    ld -r -o "$2/deiruska.o" --whole-archive "$2/proved.a" "$2/heap.a"
    objcopy --wildcard --keep-global-symbol='deiruska_*' "$2/deiruska.o"
}

# Makes both libraries of the archive $1 in the folder $2.
link_library() {
    joined "$1" "$2"
    symbols >"$2/map"
    ar rcsD "$2/libdeiruska.a" "$2/deiruska.o"
    "${CC:-cc}" -shared -Wl,-soname,"$soname" -Wl,--version-script="$2/map" -Wl,--gc-sections -Wl,-z,defs \
        -Wl,-z,now -Wl,-z,relro -Wl,-z,noexecstack -o "$2/libdeiruska.so.$version" "$2/deiruska.o"
}

# Puts the libraries that are in the folder $1 below the folder $2, for use below the folder $3.
put_library() {
    local lib=$2/$libdir
    install -d "$lib/pkgconfig"
    install -D -m 644 include/deiruska.h "$2/include/deiruska.h"
    install -m 644 "$1/libdeiruska.a" "$1/libdeiruska.so.$version" "$lib"
    ln -sf "libdeiruska.so.$version" "$lib/$soname"
    ln -sf "$soname" "$lib/libdeiruska.so"
    pkg_config "$3" >"$lib/pkgconfig/deiruska.pc"
}

# Makes the library of the archive $1 below the folder $2, for use below the folder $3.
make_library() {
    work=$(mktemp -d)
    trap 'rm -rf "$work"' EXIT
    link_library "$1" "$work"
    put_library "$work" "$2" "$3"
}

case ${1-} in
make)
    make_library "$2" "$3" "${4-$3}"
    ;;
install)
    if [ "$built" -nt "$made/lib/libdeiruska.a" ]; then LIBDIR='' bash tools/library.sh make "$built" "$made" "$3"; fi
    put_library "$made/lib" "$2$3" "$3"
    install -d "$2$3/share/man/man3"
    python3 tools/header_page.py | gzip -n9 >"$2$3/share/man/man3/deiruska.3.gz"
    python3 tools/documents.py library "$2$3/share/doc/libdeiruska"
    ;;
*)
    sed -n '2,/^set/{/^set/d;s/^# \{0,1\}//;p}' "${BASH_SOURCE[0]}" >&2
    exit 2
    ;;
esac
