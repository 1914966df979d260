# To be sourced by tests that ask what was packaged, after they have set `top` to the checkout and `room` to a folder of
# their own. Gives them `alone`, which runs a command where neither the checkout nor the toolchain is, and `check`.

status=0
ran=0
# Runs a check: its name, and a command. What it prints is shown if it fails.
check() {
    ran=$((ran + 1))
    if ! "${@:2}" >"$room/said" 2>&1; then
        echo "$what: $1"
        tail -n 20 "$room/said"
        status=1
    fi
}
leave_out() { echo "left out: $1"; }

# The path without folders of this checkout. Of a folder that has rt there are links to the other commands.
path=
IFS=: read -ra folders <<<"$PATH"
for folder in "${folders[@]}"; do
    if [[ $folder/ == "$top"/* ]]; then continue; fi
    if [ -e "$folder/rt" ]; then
        mkdir -p "$room/path"
        find "$folder" -mindepth 1 -maxdepth 1 ! -type d ! -name rt -exec ln -sf -t "$room/path" {} +
        folder=$room/path
    fi
    path+=${path:+:}$folder
done
hidden=("$top")
if command -v rt >/dev/null; then hidden+=("$(dirname -- "$(dirname -- "$(readlink -f -- "$(command -v rt)")")")"); fi
# shellcheck disable=SC2016
hide='while [ "$1" != -- ]; do mount -t tmpfs none "$1" || exit; shift; done; shift; exec "$@"'
apart=(unshare --map-root-user --mount sh -c "$hide" sh "${hidden[@]}" --)
if ! (cd / && "${apart[@]}" test ! -e "$top/Makefile") 2>/dev/null; then
    apart=()
    leave_out "hiding the checkout, since namespaces cannot be made here"
fi
# Runs a command there, with an environment of its own. Settings may come first, as for env.
alone() {
    (cd "$room/work" && "${apart[@]}" env -i PATH="$path" HOME="$room/home" LC_ALL=C.UTF-8 RUSTUP_HOME="$rustup" \
        CARGO_HOME="$room/cargo" GIT_CONFIG_NOSYSTEM=1 "$@")
}
rustup=${RUSTUP_HOME:-$HOME/.rustup}
mkdir "$room/home" "$room/work"
