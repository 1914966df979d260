# What the comparisons with git share: a room of their own, with no settings of the user's, and commits at given times. To
# be sourced by the scripts of tests.
set -euo pipefail
top=$(CDPATH='' cd -- "$(dirname -- "$(readlink -f -- "$0")")/../.." && pwd -P)

# Ends a comparison that can not be made here.
skip() {
    echo "skipped: $1"
    exit 77
}
command -v git >/dev/null || skip "git is not installed"

room=$(mktemp -d)
trap 'rm -rf "$room"' EXIT

# Neither a repository that this is called from, nor the user's settings.
mapfile -t variables < <(git rev-parse --local-env-vars)
unset "${variables[@]}" GIT_CEILING_DIRECTORIES
export HOME=$room GIT_CONFIG_NOSYSTEM=1 GIT_CONFIG_GLOBAL=/dev/null GIT_DEFAULT_HASH=sha1
export GIT_AUTHOR_NAME=a GIT_AUTHOR_EMAIL=a@example.org GIT_COMMITTER_NAME=a GIT_COMMITTER_EMAIL=a@example.org
repository=$room/repository
declare -a ids=()

# For awk: numbers that a seed, `state`, fixes, and one of some words.
# shellcheck disable=SC2016,SC2034
numbers='
    function drawn(below) {
        state = (state * 69069 + 12345) % 4294967296
        return int(state / 65536) % below
    }
    function one_of(words,   parts) { return parts[drawn(split(words, parts, "|")) + 1] }'

# An empty repository, in which `make` makes commits.
begin() {
    git init -q "$repository"
    cd "$repository"
    tree=$(git hash-object -t tree -w --stdin </dev/null)
}

# Makes a commit at a time, in seconds, whose parents are given by their numbers.
make() {
    local seconds=$1 parents=() parent
    shift
    for parent in "$@"; do parents+=(-p "${ids[$parent]}"); done
    export GIT_AUTHOR_DATE="$seconds +0000" GIT_COMMITTER_DATE="$seconds +0000"
    ids+=("$(git commit-tree "$tree" ${parents[@]+"${parents[@]}"} -m "${#ids[@]}")")
    git update-ref "refs/heads/commit-$((${#ids[@]} - 1))" "${ids[-1]}"
}
