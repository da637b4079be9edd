# What the tests and the bench need beside the toolchain, as Debian's packages: installed where that may be done, else named with the
# command that installs it. The gate, tests/run, bench/run and install read it.
missing=()
need() { command -v "$1" >/dev/null || missing+=("${@:2}"); }

# makes_programs COMPILER: that it compiles and links a program that needs no loader
makes_programs() { echo 'int main(void) { return 0; }' | "$1" -static -x c -o /dev/null - 2>/dev/null; }

need python3 python3
need cargo cargo
need rustc rustc
need flock util-linux
need g++ g++
makes_programs gcc || missing+=(gcc libc6-dev)
# The library for C is for x86-64 on every machine, and so is what is linked with it.
compiler=gcc
if [ "$(uname -m)" != x86_64 ]; then
    compiler=x86_64-linux-gnu-gcc
    makes_programs $compiler || missing+=(gcc-x86-64-linux-gnu libc6-dev-amd64-cross)
fi

install_missing() {
    local command="apt-get install -y ${missing[*]}"
    [ ${#missing[@]} -gt 0 ] || return 0
    echo "missing: ${missing[*]}"
    if [ "$(id -u)" -eq 0 ] && command -v apt-get >/dev/null; then
        apt-get update -q && DEBIAN_FRONTEND=noninteractive apt-get install -q -y "${missing[@]}" && return
        echo "this failed: $command" >&2
    else
        echo "this installs it, as root on Debian: $command" >&2
    fi
    return 1
}
install_missing || exit 2
