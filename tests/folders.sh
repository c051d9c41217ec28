# Sourced by the tests over folders of vectors: names the folders that are given from the top of the repository, and goes there.
for folder; do
    shift
    set -- "$@" "$(realpath -m --relative-to="$(dirname "$0")/.." -- "$folder")"
done
cd "$(dirname "$0")/.." || exit 1

# whole FOLDER ENDING..: the folder has vectors, and each of them a file of every ending. Says what is missing.
whole() {
    missing=$(
        folder=$1
        shift
        for ending; do
            for file in "$folder"/*."$ending"; do
                for partner; do [ -f "${file%.*}.$partner" ] || echo "missing: ${file%.*}.$partner"; done
            done
        done
    )
    [ -z "$missing" ] || { echo "$missing" | sort -u; return 1; }
}

# requested KIND: the folders of this kind (program, audit, extend) in tests/vectors/requests.
requested() {
    for folder in tests/vectors/requests/*/"$1"; do
        [ ! -d "$folder" ] || echo "$folder"
    done
}

# known: one of the tests takes something of each folder of tests/vectors/requests, and all that stands in it but README.md. Says what none takes.
known() {
    [ -e tests/vectors/requests ] || return 0
    unknown=$(
        name='[^/.][^/]*' # what `*` finds
        find tests/vectors/requests -mindepth 1 -printf '%y %P\n' |
            grep -Evx "f ($name/)?README\.md|d $name|f $name/calls\.txt|d $name/(program|audit|extend)|f $name/(program|extend)/$name\.(in|out)|f $name/audit/$name\.(index|series|out)" |
            sed 's|^. |unknown: tests/vectors/requests/|'
        find tests/vectors/requests -mindepth 1 -maxdepth 1 -type d | while read -r folder; do
            ls "$folder" | grep -Eqx 'calls\.txt|program|audit|extend' || echo "no vectors: $folder"
        done
    )
    [ -z "$unknown" ] || { echo "$unknown"; return 1; }
}

# calls_folders: the folders of cases of calls, those of tests/vectors/calls and those of tests/vectors/requests that have any.
calls_folders() {
    echo tests/vectors/calls/*
    for file in tests/vectors/requests/*/calls.txt; do
        [ ! -f "$file" ] || echo "${file%/calls.txt}"
    done
}
