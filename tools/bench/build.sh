# sh build.sh meter | peers [BASIC_TOML] -- build the meter, or it and the peers that can be built, into BENCH_OUT.
# BASIC_TOML is the folder of the source of basic-toml 0.1.10, with src/lib.rs in it. What is newer than its sources
# stays as it is. A Debian package that is missing is installed where that is allowed and NO_APT is not set.
set -eu
here=$(cd "$(dirname "$0")" && pwd)
what=${1:-}
source=${2:-}
out=$BENCH_OUT
mkdir -p "$out"

has_package() {
    dpkg -s "$1" 2>/dev/null | grep -q '^Status: install ok' && return 0
    [ -z "${NO_APT:-}" ] || return 1
    DEBIAN_FRONTEND=noninteractive apt-get install -y --no-install-recommends "$1" >"$out/apt.log" 2>&1
}

is_stale() { # program, source..
    made=$1
    shift
    [ -x "$made" ] || return 0
    for file in "$@"; do [ "$file" -nt "$made" ] && return 0; done
    return 1
}

is_left_out() { echo "$1 is left out: $2" >&2; }

build_cpp() { # program, package
    has_package "$2" || { is_left_out "$1" "no package $2 (apt-get update?)"; return 0; }
    ! is_stale "$out/$1" "$here/peers/$1.cpp" || g++ -std=c++17 -O2 -DNDEBUG -o "$out/$1" "$here/peers/$1.cpp"
}

rust() { rustc --cap-lints allow -C opt-level=3 -C codegen-units=1 -C debuginfo=1 "$@"; }

build_basic_toml() {
    if [ -z "$source" ]; then
        [ -x "$out/basic_toml" ] || is_left_out basic-toml "no --basic-toml FOLDER"
        return 0
    fi
    has_package librust-serde-dev || { is_left_out basic-toml "no package librust-serde-dev"; return 0; }
    command -v rustc >/dev/null || { is_left_out basic-toml "no rustc"; return 0; }
    is_stale "$out/basic_toml" "$here/peers/basic_toml.rs" "$source"/src/*.rs || return 0
    serde=$(dirname "$(dpkg -L librust-serde-dev | grep '/serde-[0-9.]*/Cargo.toml$' | head -1)")
    rust --edition 2015 --crate-name serde --crate-type rlib --cfg 'feature="std"' \
        -o "$out/libserde.rlib" "$serde/src/lib.rs"
    CARGO_PKG_VERSION_MAJOR=0 CARGO_PKG_VERSION_MINOR=1 CARGO_PKG_VERSION_PATCH=10 rust --edition 2021 \
        --crate-name basic_toml --crate-type rlib --extern serde="$out/libserde.rlib" \
        -o "$out/libbasic_toml.rlib" "$source/src/lib.rs"
    rust --edition 2021 --crate-name peer --extern serde="$out/libserde.rlib" \
        --extern basic_toml="$out/libbasic_toml.rlib" -o "$out/basic_toml" "$here/peers/basic_toml.rs"
}

has_package valgrind || { echo "no valgrind: it counts the instructions" >&2; exit 1; }
! is_stale "$out/meter" "$here/meter.c" || cc -O2 -o "$out/meter" "$here/meter.c"
[ "$what" = peers ] || exit 0
build_cpp tomlpp libtomlplusplus-dev
build_cpp cpptoml libcpptoml-dev
build_basic_toml
