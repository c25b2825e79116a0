# What scripts share that build or run something beside the proved crates: Debian's packages, C and Rust, and the archives of proved
# code. To be sourced, with `script` set to the name to speak under. A function that fails says why.

root=$(cd "$(dirname "${BASH_SOURCE[0]}")/.." && pwd)

say() { echo "$script: $*" >&2; }

fail() {
    say "$*"
    exit 1
}

# Whether proved code can be made here.
find_kit() {
    command -v rt >/dev/null || { say "the command rt of the Rattle toolchain is not on the PATH"; return 1; }
    [ "$(uname -m)" = x86_64 ] || { say "the Rattle toolchain makes code for x86-64, and this processor is another ($(uname -m))"; return 1; }
}

as_root() { if [ "$(id -u)" = 0 ]; then "$@"; else sudo -n "$@"; fi; }

get() { as_root env DEBIAN_FRONTEND=noninteractive apt-get -qq "$@" >/dev/null 2>&1; }

installed() { [ "$(dpkg-query -W -f '${db:Status-Status}' "$1" 2>/dev/null)" = installed ]; }

# Install those of these Debian packages that are missing; the lists are fetched only if the first attempt needs them.
need_packages() {
    local package missing=()
    for package; do installed "$package" || missing+=("$package"); done
    [ ${#missing[@]} -eq 0 ] && return
    get install -y --no-install-recommends "${missing[@]}" && return
    get update || true
    get install -y --no-install-recommends "${missing[@]}" && return
    say "these packages cannot be installed: ${missing[*]}"
    return 1
}

# The cargo or rustc of Debian's packages, which need not be first on the PATH.
of_debian() { dpkg -L "$1-web" | grep "/bin/$1\$" | grep -v /share/ | head -n 1; }

cargo_is_new_enough() {
    local version
    version=$(cargo --version 2>/dev/null | cut -d ' ' -f 2) || return 1
    [ -n "$version" ] && [ "$(printf '%s\n' 1.70.0 "$version" | sort -V | head -n 1)" = 1.70.0 ]
}

# Set cargo and rustc: any cargo from 1.70 on.
find_rust() {
    cargo=cargo rustc=rustc
    cargo_is_new_enough && return
    need_packages cargo-web rustc-web || return 1
    cargo=$(of_debian cargo) rustc=$(of_debian rustc)
}

need_gcc() { command -v gcc >/dev/null || need_packages gcc libc6-dev; }

# archive NAME: the archive of a library's calls, target/staticlib/libNAME.a, made anew by ./prove only if something has changed since this
# began to make it: that of the static library NAME_c, which exports for C what the library NAME has, or of NAME if it is one itself.
archive() (
    crate=$1
    [ -d "$root/crates/$1_c" ] && crate=$1_c
    folder=$root/target/staticlib
    began=$folder/$1.began
    mkdir -p "$folder"
    exec 8> "$folder/lock"
    flock 8
    if [ -f "$folder/lib$1.a" ] && [ "$(cat "$began" 2>/dev/null)" = "$(rt version)" ] &&
        [ -z "$(find "$root/crates" -mindepth 2 -name out -prune -o -newer "$began" -print -quit)" ] &&
        [ ! "$root/crates.txt" -nt "$began" ]; then
        exit
    fi
    say "proving and compiling $1, which takes minutes where that was not done before"
    rt version > "$began.new"
    "$root/prove" "$crate" > "$folder/$1.log" 2>&1 || { cat "$folder/$1.log" >&2; fail "the archive of $1 was not made"; }
    mv "$began.new" "$began"
)

# Copy only what differs, so that cargo sees nothing new when nothing is.
copy() {
    cmp -s "$1" "$2" || cp "$1" "$2"
    cmp "$1" "$2"
}

write() { printf '%s\n' "$2" | cmp -s - "$1" || printf '%s\n' "$2" > "$1"; }
