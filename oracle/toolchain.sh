# Read by the scripts beside it. Finds a Rust compiler that is new enough, or
# installs one, and says how to build and how to start what was built:
#   build FEATURES PROFILE [BINARY]   builds the host programs
#   start PROFILE BINARY [ARGUMENT]   runs one of them
# The port's archive is made for x86-64. On an Arm machine everything is built
# for x86-64 with Debian's cross tools and runs under an emulator.

NEEDED=85 # the minor number of the oldest Rust that will do, 1.85

not_run() {
    echo "oracle not run: $1"
    exit 0
}

rust_will_do() {
    command -v cargo >/dev/null 2>&1 && command -v rustc >/dev/null 2>&1 || return 1
    minor=$(rustc --version | sed -n 's/^rustc 1\.\([0-9]*\)\..*/\1/p')
    [ "${minor:-0}" -ge "$NEEDED" ]
}

as_root() {
    if [ "$(id -u)" = 0 ]; then "$@"; else sudo -n "$@"; fi
}

install() {
    as_root apt-get install -y --no-install-recommends "$@" >&2
}

install_rust() {
    command -v apt-get >/dev/null 2>&1 || return 1
    as_root apt-get update >&2 || return 1
    install rustc-web cargo-web || install rustc cargo || return 1
    hash -r
    rust_will_do
}

can_cross() {
    command -v "$EMULATOR" >/dev/null 2>&1 &&
        command -v x86_64-linux-gnu-gcc >/dev/null 2>&1 &&
        [ -d "$(rustc --print sysroot)/lib/rustlib/$PLATFORM/lib" ]
}

# What an Arm machine needs to build for x86-64 and to run it.
prepare_arm() {
    PLATFORM=x86_64-unknown-linux-gnu EMULATOR=qemu-x86_64
    export CARGO_TARGET_X86_64_UNKNOWN_LINUX_GNU_LINKER=x86_64-linux-gnu-gcc
    can_cross && return 0
    (PATH=/usr/bin:$PATH && rust_will_do && can_cross) && PATH=/usr/bin:$PATH && return 0
    command -v apt-get >/dev/null 2>&1 || return 1
    as_root dpkg --add-architecture amd64 && as_root apt-get update >&2 || return 1
    install gcc-x86-64-linux-gnu libc6-dev-amd64-cross qemu-user || return 1
    install rustc-web cargo-web libstd-rust-web-dev:amd64 ||
        install rustc cargo libstd-rust-dev:amd64 || return 1
    PATH=/usr/bin:$PATH
    can_cross
}

find_tools() {
    PLATFORM='' EMULATOR=''
    rust_will_do || install_rust || not_run "no Rust compiler of 1.$NEEDED or later can be had"
    case $(uname -m) in
    x86_64) ;;
    aarch64) prepare_arm || not_run "the tools to build for x86-64 cannot be had" ;;
    *) not_run "this machine is a $(uname -m)" ;;
    esac
}

# Makes the archive if its crate and the kit are there, and sets ARCHIVE to
# `archive` if there is one to link.
find_archive() {
    ARCHIVE=''
    if [ -z "${NJALLAVET_ARCHIVE:-}" ]; then
        if [ -d ../crates/exports ] && command -v rt >/dev/null 2>&1; then
            (cd ../crates/exports && rt lib) >&2 || {
                echo "the port's archive cannot be built" >&2
                exit 1
            }
        fi
        [ -f ../crates/exports/out/libexports.a ] && NJALLAVET_ARCHIVE=../crates/exports/out
    fi
    if [ -n "${NJALLAVET_ARCHIVE:-}" ]; then
        NJALLAVET_ARCHIVE=$(cd "$NJALLAVET_ARCHIVE" && pwd)
        export NJALLAVET_ARCHIVE
        ARCHIVE=archive
    elif [ -d ../crates/exports ]; then
        echo "crates/exports is there, but no archive of it (rt lib makes it there)" >&2
        exit 1
    fi
}

build() {
    cargo build --offline --quiet --package host --profile "$2" --features "$1" \
        ${3:+--bin "$3"} ${PLATFORM:+--target "$PLATFORM"}
}

start() {
    program=${CARGO_TARGET_DIR:-target}/${PLATFORM:+$PLATFORM/}$1/$2
    shift 2
    $EMULATOR "$program" "$@"
}
