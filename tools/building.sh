# shellcheck shell=sh disable=SC2154
# What `run` and `oracle/archives` share: one build at a time. Sourced, with `top` set to the repository's folder.

# lock WHO WHAT: waits until no other call builds here, and says for what; then others wait for this one, until `unlock` or until all that it started has ended.
# The lock is that of the open file, which stands beside target/. Status 1 where the file cannot be written
lock() {
    : 2> /dev/null >> "$top/.build.lock" || return 1
    exec 9>> "$top/.build.lock"
    if command -v flock > /dev/null && ! flock -n 9; then
        echo "$1: waiting for another call, which builds $(cat "$top/.build.lock")" >&2
        flock 9
    fi
    echo "$2" > "$top/.build.lock"
}

unlock() { exec 9>&-; }
