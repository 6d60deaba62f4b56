# Read by bin/build and tools/try_edits, which set $top: how crates stand on one another, and a folder with some of them.

# The crates that some crates stand on, each behind those that it stands on itself, and the crates. With 'lines' their lines.
crates_of() { # CRATES [lines]
    awk -v wanted="$1" -v lines="${2:-}" '
        { sub(/#.*/, "") }
        NF {
            name = $1
            sub(/:.*/, "", name)
            sub(/^[^:]*:/, "")
            below[name] = $0
        }
        function visit(name,    names, count, i) {
            if (!(name in below) || name in seen) return
            seen[name] = 1
            count = split(below[name], names, " ")
            for (i = 1; i <= count; i++) visit(names[i])
            print lines ? name ":" below[name] : name
        }
        END {
            count = split(wanted, names, " ")
            for (i = 1; i <= count; i++) visit(names[i])
        }
    ' "$top/crates.txt"
}

# Copies these crates, and those that they stand on, without edits that must fail and without what was built, into a folder in which
# rt ci proves them.
room_of() { # FOLDER CRATES
    mkdir "$1/.git" "$1/crates" && cp "$top/HANDLES" "$1" && crates_of "$2" lines >"$1/crates.txt" || return
    for crate in $(crates_of "$2"); do
        mkdir "$1/crates/$crate" || return
        for part in "$top/crates/$crate"/*; do
            case ${part##*/} in
                out | must-fail) ;;
                *) cp -R "$part" "$1/crates/$crate" || return ;;
            esac
        done
    done
}
