# Sourced by samples/run, samples/replay and samples/desk at the top of the repository. build NAME: proves the program NAME and builds it as target/bin/NAME, where that is not done: about ten minutes from nothing.
# A terminal sees how far it is, on one line of standard error. Where something is not proved the end of target/NAME.log goes to standard error, and the status is 1.

# sources: a number for all that rt goes by: the toolchain, the machine, the list of crates and their files.
sources() {
    {
        rt version
        uname -m
        find crates.txt crates \( -name must-fail -o -name out \) -prune -o -type f -print0 | sort -z | xargs -0 sha256sum
    } 2>&1 | sha256sum
}

# program NAME: a number for the program, if it is there.
program() { sha256sum "target/bin/$1" 2>&1; }

# needed CRATE: how many crates of this repository CRATE needs, with itself.
needed() {
    awk -v want="$1" '
        { sub(/#.*/, "") }
        split($0, half, ":") > 1 { gsub(/ /, "", half[1]); needs[half[1]] = half[2] }
        function visit(name,    list, k) {
            if (name in seen || !(name in needs)) return
            seen[name]; count++
            for (k = split(needs[name], list, " "); k > 0; k--) visit(list[k])
        }
        END { visit(want); print count }' crates.txt
}

# say TEXT: on the one line of standard error, in place of what stood there; nothing where that is no terminal.
say() { [ ! -t 2 ] || printf '\r%-60s\r' "$1" >&2; }

# prove NAME: proves and builds the program. rt says when a crate is proved, of several at a time.
prove() {
    [ -e "target/bin/$1" ] || rm -f "target/stamp/$1"
    { tools/program "$1" 2>&1; echo "rt ended with $?"; } | tee "target/$1.log" | {
        all=$(needed "$1") proved=0 ended=
        say "proving crate 1 of $all"
        while read -r line; do
            case $line in
            'logic=proved '*)
                proved=$((proved + 1))
                [ "$proved" -ge "$all" ] || say "proving crate $((proved + 1)) of $all"
                ;;
            'rt ended with '*) ended=${line##* } ;;
            esac
        done
        say ''
        [ "$ended" = 0 ]
    }
}

# All is proved if sources and program are those of the last time that rt said so.
build() {
    mkdir -p target
    now=$(sources)
    [ "$now $(program "$1")" != "$(cat "target/$1.proved" 2> /dev/null)" ] || return 0
    prove "$1" || { tail -n 20 "target/$1.log" >&2; return 1; }
    [ "$now" != "$(sources)" ] || echo "$now $(program "$1")" > "target/$1.proved"
    return 0
}
