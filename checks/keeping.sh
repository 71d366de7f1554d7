# What ./nooks, ./nooks-unproved and ./nooks-plain share. A program is kept as out/KIND/nooks, with KIND `unproved` or `plain`,
# and next to it the checksum of the sources that it was built from. The caller sets `top`, the folder of the repository.

# Whether a command is on the path.
has() {
    command -v "$1" > /dev/null
}

# Lists the files that a program is built from, and of the scripts those that change them, each ended by a zero byte.
sources() {
    case "$1" in
    unproved) find crates.txt checks/unproved checks/trying.py crates/*/src crates/*/specs -type f -print0 ;;
    plain) find bench/plain -type f -print0 ;;
    esac
}

# The checksum of the names and the contents of those files, without their modification times, which `git` changes.
sum_of() {
    (cd "$top" && sources "$1" | LC_ALL=C sort -z | xargs -0 sha256sum | sha256sum)
}

# Whether there is a program that was built from the present sources.
is_kept() {
    local kept="$top/out/$1"
    [ -x "$kept/nooks" ] && [ -f "$kept/sum" ] && [ "$(cat "$kept/sum")" = "$(sum_of "$1")" ]
}

# Builds a program into a file.
build() {
    case "$1" in
    unproved) "$top/checks/unproved" "$2" ;;
    plain) rustc --edition 2021 -O -o "$2" "$top/bench/plain/main.rs" ;;
    esac
}

# Builds a program and keeps it. The checksum is written last, so that an interrupted build is repeated. Of several
# concurrent calls one builds, and the others wait for it.
keep() {
    local kind="$1" kept="$top/out/$1" sum
    mkdir -p "$kept" && exec 9> "$kept/lock" || return 1
    if has flock && ! flock --nonblock 9; then
        echo "$(basename "$0"): waiting for another call, which builds the program" >&2
        flock 9
    fi
    if ! is_kept "$kind"; then
        sum="$(sum_of "$kind")"
        rm -f "$kept/sum" "$kept"/nooks*
        build "$kind" "$kept/nooks.$$" >&2 < /dev/null && mv "$kept/nooks.$$" "$kept/nooks" && echo "$sum" > "$kept/sum" || return 1
    fi
    exec 9>&-
}
