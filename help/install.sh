# Installs the proved library of one part for hosts in C. Read by gateway/install and node/install, which say the top folder, the part, which is the library's
# name too, the name of its header and what pkg-config tells of it.
header=$top/$part/include/$name.h
library=${WATERBOOK_LIB_DIR:-$top/target/staticlib}/lib$part.a

# One part of the version, as the header has it.
version() {
    sed -n "s/^#define ${name^^}_VERSION_$1 \([0-9]*\)$/\1/p" "$header"
}

# The calls that the header declares.
calls() {
    sed -n -E "s/^(uint32_t|size_t) (${name}_[a-z_]+)\(.*$/\2/p" "$header"
}

# Those of them that the archive does not define.
missing() {
    comm -23 <(calls | sort) <(nm "$library" 2> /dev/null | sed -n 's/^[0-9a-f]* T //p' | sort)
}

# What pkg-config is told.
told() {
    cat << EOT
prefix=$1
libdir=\${prefix}/lib
includedir=\${prefix}/include

Name: $name
Description: $words
Version: $(version MAJOR).$(version MINOR).$(version PATCH)
Cflags: -I\${includedir}
Libs: -L\${libdir} -l$part
EOT
}

if [ $# -ne 1 ] || [ "${1#/}" = "$1" ]; then
    echo "usage: $part/install PREFIX, a path from the root; DESTDIR and WATERBOOK_LIB_DIR are honoured" >&2
    exit 2
fi
case $1 in
*[[:space:]\"\'\\\$\#]*)
    echo "install: take a PREFIX without blanks, quotes, \\, \$ and #, which break pkg-config's flags" >&2
    exit 2
    ;;
esac
if [ ! -f "$library" ]; then
    echo "install: there is no $library; prove and write it with: help/library.sh $part" >&2
    exit 1
fi
if command -v nm > /dev/null; then
    lacks=$(missing)
    if [ -n "$lacks" ]; then
        echo "install: $library does not define ${lacks//$'\n'/, }" >&2
        exit 1
    fi
else
    echo "install: no nm here, it was not checked that the library has the header's calls"
fi
root=${DESTDIR-}$1
# All may read what is installed, whoever installs it.
umask 022
mkdir -p "$root/include" "$root/lib/pkgconfig"
told "$1" > "$root/lib/pkgconfig/$name.pc"
cp "$header" "$root/include/$name.h"
cp "$library" "$root/lib/lib$part.a"
chmod 644 "$root/lib/pkgconfig/$name.pc" "$root/include/$name.h" "$root/lib/lib$part.a"
echo "install: $name $(version MAJOR).$(version MINOR).$(version PATCH) below $root"
