# shellcheck shell=bash
# Which files the programs are built from, and their sum. A part of the tools that build.

# needed TOP: the lines of crates.txt for the crates that the programs and the library stand on, in the file's order
needed() {
    awk '
        { sub(/#.*/, "") }
        NF {
            split($0, half, ":")
            split(half[1], word, " ")
            line[++count] = $0
            name[count] = word[1]
            uses[word[1]] = half[2]
        }
        END {
            wanted["front"] = 1
            wanted["batsokemi"] = 1
            wanted["batsokemi_c"] = 1
            do {
                more = 0
                for (k = 1; k <= count; k++) {
                    if (!(name[k] in wanted)) continue
                    below = split(uses[name[k]], used, /[ ,]+/)
                    for (j = 1; j <= below; j++)
                        if (used[j] in uses && !(used[j] in wanted)) { wanted[used[j]] = 1; more = 1 }
                }
            } while (more)
            for (k = 1; k <= count; k++) if (name[k] in wanted) print line[k]
        }' "$1/crates.txt"
}

# needed_names TOP: the names of these crates
needed_names() {
    needed "$1" | sed 's/[ :].*//'
}

# source_files TOP: the files of these crates below TOP, crate by crate, those of a crate by the bytes of
# their names
source_files() (
    shopt -s globstar nullglob
    LC_ALL=C
    cd "$1" || exit 1
    for name in $(needed_names .); do
        printf '%s\n' "crates/$name"/src/**/*.rt "crates/$name"/specs/**/*.antt "crates/$name"/proofs/**/*.antt
    done | sed '/^$/d'
)

# sum_of_sources TOP: one SHA-256 over the needed lines of crates.txt and over the sum and the name of each file
sum_of_sources() (
    cd "$1" || exit 1
    { needed .; source_files . | tr '\n' '\0' | xargs -0 sha256sum; } | sha256sum | cut -d' ' -f1
)

# sum_of FILE: its SHA-256
sum_of() {
    sha256sum <"$1" | cut -d' ' -f1
}
