# shellcheck shell=bash disable=SC2154,SC2034 # (name, example, root, program, room, child and half_made are the launcher's)
# What the launcher does with the toolchain: it proves and builds the program, or tries its source unproved.

# The crates that the program stands on, lowest first, and then its own.
crates_of_program() {
    awk -F: -v top="$name" '
        function visit(crate,    list, count, at) {
            if (crate in seen || !(crate in uses)) return
            seen[crate] = 1
            count = split(uses[crate], list, " ")
            for (at = 1; at <= count; at++) visit(list[at])
            print crate
        }
        /^[a-z]/ { uses[$1] = $2 }
        END { visit(top) }' "$root/crates.txt"
}

# Whether a file is there, and no source, definition or proof of the crates named is newer.
is_newer() {
    local file=$1 crate folders=()
    shift
    [ -f "$file" ] || return
    for crate; do
        folders+=("$root/crates/$crate/src" "$root/crates/$crate/specs" "$root/crates/$crate/proofs")
    done
    [ -z "$(find "${folders[@]}" -newer "$file" -print -quit 2>/dev/null)" ]
}

# Whether the proved program is there, made from the sources as they are: by --build, by `rt run` or by the gate.
is_built() {
    # shellcheck disable=SC2046 # (names of crates have no blanks)
    [ -x "$program" ] && [ ! "$root/crates.txt" -nt "$program" ] && is_newer "$program" $(crates_of_program)
}

# Calls rt in a crate's folder.
rt_in() {
    cd "$root/crates/$1" && shift && exec rt "$@"
}

need_rt() {
    command -v rt >/dev/null || fail "the proved program is not built, and the Rattle toolchain (rt) is not on the PATH: \
see 'Run it' in $root/README.md"
}

# Waits for rt on a crate, and tells every half minute that it goes on.
wait_telling() {
    local began=$SECONDS next=$((SECONDS + 30))
    while kill -0 "$child" 2>/dev/null; do
        read -rt 0.2 -u "$clock"
        if [ "$SECONDS" -ge "$next" ]; then
            say "$2 of $3: $1, for $(clock_of $((SECONDS - began))); in all $(clock_of "$SECONDS")"
            next=$((next + 30))
        fi
    done
    wait "$child"
}

clock_of() {
    printf '%d:%02d' $(($1 / 60)) $(($1 % 60))
}

# Proves the libraries one after another, lowest first, and then the program: rt itself takes several processors for each
# where there are some and memory allows. Kept work of an earlier call is used; what has not changed is passed over.
build() {
    local crates crate at=0 is_changed='' status=0
    make_room
    need_rt
    exec {clock}<> <(:)
    mapfile -t crates < <(crates_of_program)
    touch "$room/began"
    say "proving ${#crates[@]} crates, lowest first; where nothing is proved yet it takes an hour or two"
    for crate in "${crates[@]}"; do
        at=$((at + 1))
        if [ "$crate" = "$name" ]; then
            # (it proves, links and runs the program, which ends with 6 on an empty document)
            half_made=$program
            rt_in "$crate" run "$crate" -- "${example%% *}" </dev/null >"$room/log" 2>&1 &
        elif [ -z "$is_changed" ] && is_newer "$root/crates/$crate/out/rlib/stamp" "$crate"; then
            continue
        else
            is_changed=yes
            rt_in "$crate" lib </dev/null >"$room/log" 2>&1 &
        fi
        child=$!
        wait_telling "$crate" "$at" "${#crates[@]}"
        status=$?
        child=
        [ "$crate" != "$name" ] || [ "$status" -ne 6 ] || status=0
        if [ "$status" -ne 0 ]; then
            tail -n 20 "$room/log" >&2
            fail "$crate could not be proved or built"
        fi
        say "proved $at of ${#crates[@]}: $crate; in all $(clock_of "$SECONDS")"
    done
    # (a source that was edited meanwhile is then newer than the program)
    touch -r "$room/began" "$program"
    half_made=
    say "the proved program is built: $program"
}

# ---- the same source, unproved

# Where the program would put a document, for a name that a policy may have.
stem_of() {
    [[ ${1#/policy/} =~ ^[A-Za-z0-9_-][A-Za-z0-9_.-]{0,63}$ ]] && echo "${1#/policy/}"
}

# rt compiles the source anew, runs it in a new folder on copies of what it reads, and keeps nothing.
try() {
    local file stem='' copies=() asked=("$@") status
    if ! is_word "${1-}"; then
        echo "error Usage"
        return 1
    fi
    need_rt
    say "the proved program is not built, so this answer is UNPROVED and takes a minute or two; '$0 --build' proves it"
    make_room
    : >"$room/source"
    if reads_source "$1"; then
        attend head -c "$most" >"$room/source" 2>/dev/null || return 2
    fi
    for file in policies/*.json policies/*.scene; do
        stem=${file#policies/}
        stem=$(stem_of "${stem%.*}") && [ -f "$file" ] && copies+=(--data "$file=$PWD/$file")
    done
    stem=
    # The folder that rt makes is gone behind the try. What import puts is what canon prints, so canon is asked.
    if [ $# -eq 2 ] && [ "$1" = import ] && stem=$(stem_of "$2"); then
        asked=(canon)
    fi
    input=0 attend rt_in "$name" try --seconds 300 ${copies[@]+"${copies[@]}"} -- "${asked[@]}" \
        <"$room/source" >"$room/printed" 2>"$room/told"
    status=$(sed -n '$s/^run=ended status=\([0-9]*\) .*/\1/p' "$room/told")
    if [ -z "$status" ]; then
        tail -n 20 "$room/told" >&2
        fail "the try gave no answer: it has none of more than a MiB, or that takes minutes. '$0 --build' makes the program"
    fi
    if [ -n "$stem" ] && [ "$status" -eq 0 ]; then
        put_document "$stem" || return 4
        echo "imported $stem" >"$room/printed"
    fi
    cat "$room/printed" 2>/dev/null || status=3
    return "$status"
}

# Puts the canonical text that the try has printed, without its line feed, into the folder in one step.
put_document() {
    mkdir -p policies 2>/dev/null && half_made=$(mktemp "policies/.$1.XXXXXX" 2>/dev/null) || return
    if head -c -1 "$room/printed" >"$half_made" 2>/dev/null && chmod "$(printf %o $((0666 & ~0$(umask))))" "$half_made" &&
        mv -T "$half_made" "policies/$1.json" 2>/dev/null; then
        half_made=
        return 0
    fi
    rm -f "$half_made"
    half_made=
    return 1
}

version() {
    local commit=''
    [ ! -e "$root/.git" ] || commit=$(git -C "$root" describe --always --dirty 2>/dev/null)
    echo "$name ${commit:-of no known commit}"
    if command -v rt >/dev/null; then rt version; else echo "the Rattle toolchain (rt) is not on the PATH"; fi
    if is_built; then
        echo "proved, and built at $(date -u -r "$program" '+%F %R') UTC from the sources as they are"
    else
        echo "not built from the sources as they are: answers are unproved"
    fi
}
