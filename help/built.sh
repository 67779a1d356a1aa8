# Has rt prove and build, and lays what it built where hosts, ./run and the tests take it from: target/staticlib/libNAME.a and target/bin/waterbook.
# Its functions are called at the top of the clone. Read by run, help/library.sh, tests/build and tests/papers.

# A file is there whole or not at all, and one that has not changed is left alone.
lay() { # FROM TO
    cmp -s -- "$1" "$2" 2> /dev/null && return
    mkdir -p -- "${2%/*}" && cp -- "$1" "$2.$$" && mv -f -- "$2.$$" "$2" && return
    rm -f -- "$2.$$"
    return 1
}

build_library() { # NAME
    (CDPATH='' cd -- "crates/$1" && rt lib) && lay "crates/$1/out/lib$1.a" "target/staticlib/lib$1.a"
}

# rt runs the program once it has built it, here on an empty journal; where not all is proved, nothing is built or run and the status is not 0.
build_program() {
    (CDPATH='' cd -- crates/waterbook && rt run < /dev/null > /dev/null) && lay crates/waterbook/out/waterbook target/bin/waterbook
}
