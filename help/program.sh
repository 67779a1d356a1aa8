# The words that run a program which rt built, in `program`. rt builds for x86-64: on another machine they are those of the emulator that the Rattle kit has there, where it has one. Read by run and the tests.
program=()

# Whether this machine links and runs what rt builds as it is.
at_home() { [ "$HOSTTYPE" = x86_64 ]; }

find_program() { # FILE
    local rt tools
    program=("$1")
    # What is no ELF file, as a script in a program's place, runs by itself.
    if at_home || [ "$(head -c 4 -- "$1" 2> /dev/null | tail -c 3)" != ELF ]; then
        return
    fi
    while IFS= read -r rt; do
        rt=$(readlink -f -- "$rt")
        tools=${rt%/*}/../on/$HOSTTYPE/toolchain
        if [ -x "$tools/bin/qemu-x86_64" ]; then
            program=("$tools/bin/qemu-x86_64" "$tools/lib/ld-linux-x86-64.so.2" --library-path "$tools/lib" "$1")
            return
        fi
    done < <(type -a -p rt)
}
