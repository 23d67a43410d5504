# shellcheck shell=bash
# Builds the programs of a checkout, which proves every function that goes into them: the program, `crates/front`, and the
# strict one, `crates/batsokemi`. A part of the tools that build; `sources.sh` goes before it.
#
# It is built in a copy that has the crates that the program stands on and no other, so that nothing else is
# proved. The copy stays, with all that was proved, and a build that was interrupted goes on where it was.

tell() {
    echo "batsokemi: $1" >&2
}

# copy_folder TOP: where the copy of a checkout lies; it is named by the path of the checkout
copy_folder() {
    local base=${XDG_CACHE_HOME:-${HOME:-$(dirname "$(mktemp -u)")/of-$(id -u)}/.cache}/batsokemi
    echo "${BATSOKEMI_BUILD:-$base/$(printf '%s' "$1" | sha256sum | cut -c1-12)}"
}

# As many crates side by side as there are processors, and 4 GB of memory for each.
jobs_here() {
    local jobs fitting
    jobs=$(nproc)
    fitting=$(awk '/^MemAvailable/ { print int($2 / 4000000) }' /proc/meminfo)
    [ "${fitting:-1}" -ge "$jobs" ] || jobs=$fitting
    [ "$jobs" -ge 1 ] || jobs=1
    echo "$jobs"
}

# copy_sources TOP COPY: brings the copy to the state of the checkout, and leaves what is the same as it is
copy_sources() {
    local file
    mkdir -p "$2/crates" || return 1
    needed "$1" >"$2/crates.new" && mv "$2/crates.new" "$2/crates.txt" || return 1
    [ ! -f "$1/HANDLES" ] || cp "$1/HANDLES" "$2/HANDLES"
    source_files "$1" >"$2/files" || return 1
    find "$2/crates" -mindepth 2 -path '*/out' -prune -o -type f -printf 'crates/%P\n' |
        awk 'NR == FNR { wanted[$0]; next } !($0 in wanted)' "$2/files" - |
        while IFS= read -r file; do rm -f "$2/$file"; done
    while IFS= read -r file; do
        cmp -s "$1/$file" "$2/$file" || { mkdir -p "$2/${file%/*}" && cp "$1/$file" "$2/$file"; } || return 1
    done <"$2/files"
    find "$2/crates" -mindepth 1 -maxdepth 1 -type d -printf '%f\n' | while IFS= read -r file; do
        [ -d "$1/crates/$file" ] && grep -q "^crates/$file/" "$2/files" || rm -rf "$2/crates/$file"
    done
    while IFS= read -r file; do
        echo "$file $(cat "$2/crates/$file"/*/*.* "$2/crates/$file"/*/*/*.* 2>/dev/null | wc -c)"
    done < <(needed_names "$2") >"$2/sizes"
}

# at_work COPY: the crates that are proved at the moment, by the folders that the prover runs in
at_work() {
    find /proc -maxdepth 2 -name cwd -lname "$1/crates/*" -printf '%l\n' 2>/dev/null |
        sed 's:.*/::' | sort -u | tr '\n' ' ' | sed 's/ $//'
}

# how_far COPY SECONDS: how many crates are proved of all, about how long the rest takes, and what is waited for
how_far() {
    local now others
    now=$(at_work "$1")
    others=$(sed -n 's/^rt: \([a-z_0-9]*\): another copy of the repository is building.*/\1/p' "$1/log" | tr '\n' ' ')
    grep -a '^== ' "$1/log" | awk -v seconds="$2" -v now="$now" -v others="$others" '
        NR == FNR { size[$1] = $2; all += $2; crates++; next }
        $2 in size && !($2 in proved) { proved[$2]; count++; done += size[$2] }
        END {
            split(now, word, " ")
            for (k = 1; k in word; k++)
                if (!(word[k] in proved)) { busy[word[k]]; at = at (at ? ", " : "") word[k] }
            split(others, word, " ")
            for (k = 1; k in word; k++)
                if (!(word[k] in proved) && !(word[k] in busy)) at = at (at ? ", " : "") word[k] " (another checkout builds it)"
            line = sprintf("%d of %d crates proved", count, crates)
            if (!count && (at == "" || at == "front" || at == "batsokemi")) { at = ""; line = line "; first a quick pass over all sources, some minutes" }
            else if (count >= crates) line = line ", and now the program is built"
            else if (done * 20 > all && seconds > 60) line = line ", about " int(seconds * (all - done) / done / 60 + 1) " min to go"
            print line (at ? "; at work on " at : "")
        }' "$1/sizes" -
}

# show COPY SECONDS: on a terminal one line is written again and again; elsewhere one is written for each
# crate that is done, and each minute
shown='' shown_at=-60
show() {
    local report
    report=$(how_far "$1" "$2")
    if [ -t 2 ]; then
        printf '\r\033[Kbatsokemi: %.*s' "$(($(tput cols 2>/dev/null || echo 100) - 14))" "$report" >&2
    elif [ "${report%% *}" != "$shown" ] || [ "$2" -ge $((shown_at + 60)) ]; then
        tell "$report"
        shown=${report%% *} shown_at=$2
    fi
}

# watch COPY COMMAND..: runs it in a process group of its own, and shows how far it is. It is stopped when
# this script is.
watch() {
    local copy=$1 begun=$SECONDS child
    shift
    shown_at=-60
    set -m
    "$@" >>"$copy/log" 2>&1 9>&- &
    child=$!
    set +m
    trap 'kill -- "-$child" 2>/dev/null; [ ! -t 2 ] || echo >&2; tell "stopped; the next start goes on from here"; exit 70' INT TERM HUP
    while kill -0 "$child" 2>/dev/null; do
        show "$copy" $((SECONDS - begun))
        sleep 1
    done
    show "$copy" $((SECONDS - begun))
    [ ! -t 2 ] || echo >&2
    trap - INT TERM HUP
    wait "$child"
}

# take_programs COPY FOLDER: puts the programs that were built there into the folder
take_programs() {
    local from
    for from in front/out/front:batsokemi batsokemi/out/batsokemi:batsokemi-strict; do
        cp "$1/crates/${from%:*}" "$2/${from#*:}.new" && chmod 755 "$2/${from#*:}.new" && mv "$2/${from#*:}.new" "$2/${from#*:}" || return 1
    done
}

# prove_and_build TOP COPY: the programs are in COPY/crates/*/out then, and COPY/sum is the sum of what they were built
# from
prove_and_build() {
    local program
    rm -f "$2/sum"
    copy_sources "$1" "$2" || { tell "the sources can't be copied to $2"; return 1; }
    sum_of_sources "$2" >"$2/sum.new"
    : >"$2/log"
    watch "$2" env -C "$2" rt all check --jobs "$(jobs_here)" || return 1
    for program in batsokemi front; do
        watch "$2" env -C "$2/crates/$program" rt run -- agree <"$1/examples/agree/xor.agree" || return 1
    done
    mv "$2/sum.new" "$2/sum"
}

# version_of TOP: the number at the head of CHANGELOG.md
version_of() {
    sed -n 's/^## \([0-9][0-9.]*\).*/\1/p' "$1/CHANGELOG.md" | head -n 1
}

# manifest TOP FOLDER SUM: what is said of the programs there that were built from the sources with that sum
manifest() {
    echo "version $(version_of "$1")"
    echo "program $(sum_of "$2/batsokemi")"
    echo "strict $(sum_of "$2/batsokemi-strict")"
    echo "sources $3"
    echo "toolchain $(rt version)"
    echo "commit $(git -C "$1" rev-parse HEAD 2>/dev/null || echo unknown)"
    echo "crates $(needed_names "$1" | tr '\n' ' ' | sed 's/ $//')"
}

# await COPY: waits for another start that builds there, and shows how far that one is
await() {
    tell "another start builds the program, and this one waits for it (log: $1/log)"
    until flock -n 9; do
        [ ! -f "$1/sum.new" ] || show "$1" $(($(date +%s) - $(stat -c %Y "$1/sum.new" 2>/dev/null || date +%s)))
        sleep 1
    done
    [ ! -t 2 ] || echo >&2
}

# build TOP COPY [anew]: the same, in turn with other starts of the same checkout; with `anew` also where the program
# of these sources stands there
build() {
    command -v rt >/dev/null || { tell "the Rattle toolchain is needed to build the program, with rt on the path"; return 1; }
    mkdir -p "$2" && [ -O "$2" ] || { tell "the program is built in $2, and that folder can't be made here"; return 1; }
    exec 9>"$2/lock"
    flock -n 9 || await "$2"
    if [ "${3-}" = anew ] || [ ! -f "$2/sum" ] || [ "$(cat "$2/sum")" != "$(sum_of_sources "$1")" ]; then
        tell "proving and building the program from $(needed_names "$1" | wc -l) crates: half an hour on four processors where nothing is proved yet (log: $2/log)"
        prove_and_build "$1" "$2" || { tell "the build failed; see $2/log"; return 1; }
    fi
    exec 9>&-
}
