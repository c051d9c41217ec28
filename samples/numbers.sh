# Sourced by samples/replay and samples/desk: the search program's input, for programs that read numbers.

# refusal FILE: what the search program refuses FILE with, if it does: its text has another form, or the programs do not hold it.
refusal() { target/bin/find < "$1" | sed -n '1s/^(refused .*/&/p'; }

# numbers FILE: its five lines as two lines of numbers: window, width, merge, how many prices, and these; kind, band, threshold, scale, shift, how many values the query has, and these.
numbers() {
    tr -d '()' < "$1" | awk '
        NR <= 3 { printf "%s ", $2 }
        NR == 4 { $1 = NF - 1; print }
        NR == 5 { $7 = NF - 7; $2 = ($2 == "normal"); sub(/^find /, ""); print }'
}
