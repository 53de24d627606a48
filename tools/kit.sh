# Finds the kit that `rt` belongs to, or takes RATTLE_HOME, and sets: kit, rt, tools (the compiler and the C library), clang and linker. Read by the scripts
# that compile C. What the kit makes runs on x86-64.
kit=${RATTLE_HOME:-}
if [ -z "$kit" ]; then
    rt=$(command -v rt) || { echo "no rt on the path: set RATTLE_HOME to the kit's folder" >&2; exit 2; }
    while [ -L "$rt" ]; do
        link=$(readlink "$rt")
        case $link in /*) rt=$link ;; *) rt=$(dirname "$rt")/$link ;; esac
    done
    kit=$(cd "$(dirname "$rt")/.." && pwd -P)
fi
rt=$kit/bin/rt
tools=$kit/toolchain
clang=$tools/bin/clang
linker=$kit/bin/rattle-link
[ -x "$clang" ] || { echo "no toolchain in the kit at $kit" >&2; exit 2; }
[ "$(uname -m)" = x86_64 ] || { echo "this kit's programs run on x86-64, and this machine is $(uname -m)" >&2; exit 2; }

# Compiles C for the machine that the kit's programs run on; the words are the compiler's.
compile_c() {
    "$clang" --target=x86_64-unknown-linux-gnu "$@"
}

# Links the object files and archives named behind the program's name.
link_program() { # PROGRAM FILE...
    program=$1
    shift
    "$linker" --target x86_64-unknown-linux-gnu --toolchain "$tools" -o "$program" "$@" >&2
}
