# Has waterbook proved and built by rt, and says how far that is. Read by run.
declare -A rests=() seen=() told=()
order=()

read_crates() {
    local line name
    while IFS= read -r line || [ -n "$line" ]; do
        line=${line%%#*}
        [[ $line == *:* ]] || continue
        # Behind its name a static library has the word staticlib.
        read -r name _ <<< "${line%%:*}"
        rests[$name]=${line#*:}
    done < "$here/crates.txt"
}

# A crate comes after those that it rests on; what crates.txt does not list is the kit's.
visit() { # CRATE
    local under
    [ -z "${seen[$1]-}" ] || return 0
    seen[$1]=1
    for under in ${rests[$1]}; do
        [ -z "${rests[$under]+x}" ] || visit "$under"
    done
    order+=("$1")
}

# The crates that waterbook takes, in the order in which rt goes through them.
find_order() {
    read_crates
    visit waterbook
}

say_once() {
    [ -n "${told[run]-}" ] || say 'not all is proved as it stands now; rt proves it first, which can take minutes'
    told[run]=1
}

# rt names a crate when it starts to prove it and with each function that it has proved, and not at all where the crate is proved already.
tell_progress() {
    local line at name
    [ "${#order[@]}" -gt 0 ] || find_order
    while IFS= read -r line; do
        [[ $line =~ ^(rt: chose --jobs [0-9]+ for|checked|fn)\ ([a-z0-9_]+)(::|$) ]] || continue
        name=${BASH_REMATCH[2]}
        [ -z "${told[$name]-}" ] || continue
        told[$name]=1
        for at in "${!order[@]}"; do
            [ "${order[at]}" = "$name" ] || continue
            say_once
            say "proving $name, crate $((at + 1)) of ${#order[@]}"
        done
    done < "$room/rt"
}

# Two at once in one clone would wait for each other without a word; the lock is on a file that is there anyway.
one_at_a_time() {
    command -v flock > /dev/null && exec 8< "$here/crates.txt" || return 0
    flock -w 2 8 || { say 'another ./run proves in this clone; waiting for it'; flock 8; }
}

ask_rt() {
    local status=0
    one_at_a_time
    if [ -n "$outer_set" ]; then LC_ALL=$outer; else unset LC_ALL; fi
    CDPATH='' cd -- "$here" && build_program > "$room/rt" 2>&1 || status=$?
    echo "$status" > "$room/status"
    echo >&7
}

# rt works while the journal is taken in. It has a process group of its own, so that an interrupt ends its provers too.
start_rt() {
    command -v rt > /dev/null || fail 4 'rt, the prover of the Rattle kit, is not on the PATH, and nothing is run that it has not proved'
    : > "$room/rt" && mkfifo "$room/end" && exec 7<> "$room/end" || fail 3 'the temporary folder cannot be written'
    # Without this stamp of rt's a first look at all sources comes first, in which it names no crate.
    [ -e "$here/crates/waterbook/out/waterbook.stamp" ] || say_once
    set -m
    ask_rt &
    prover=$!
    set +m
}

# What rt said last, without its counts of modules.
last_words() {
    local line
    while IFS= read -r line || [ -n "$line" ]; do
        case $line in
            *': modules loaded='* | 'axioms '* | 'logic '*) ;;
            *) printf '%s\n' "$line" ;;
        esac
    done < "$room/rt" | tail -n 20
}

await_rt() {
    local status=''
    until read -r -t 0.3 -u 7 _; do
        tell_progress
        kill -0 "$prover" 2> /dev/null || break
    done
    wait "$prover" 2> /dev/null
    prover=''
    [ ! -e "$room/status" ] || read -r status < "$room/status"
    exec 7<&-
    [ "$status" != 0 ] || [ ! -x "$here/target/bin/waterbook" ] || return 0
    last_words >&2
    fail 4 "the program could not be proved and built; the lines above are rt's last"
}
