# The Rattle kit's own tools, for scripts that build or run programs beside rt, and what they build. The kit is for x86-64 Linux. Source it.
kit_home=$(dirname "$(dirname "$(readlink -f "$(command -v rt)")")")
kit_tools=$kit_home/toolchain

# kit_cc OUT.o SOURCE [WORDS..]: one C file, by the kit's bare compiler.
kit_cc() {
    local out=$1 source=$2
    shift 2
    "$kit_tools/bin/clang" --target=x86_64-unknown-linux-gnu -fPIC -O2 -Wall -Wextra -Werror "$@" -c "$source" -o "$out"
}

# kit_link OUT FILE..: objects and archives, and the kit's C library.
kit_link() {
    local out=$1
    shift
    "$kit_home/bin/rattle-link" --target x86_64-unknown-linux-gnu --toolchain "$kit_tools" -o "$out" "$@" 2>/dev/null
}

# kit_run: the words before a program that kit_link or rt linked, with which it runs on the kit's C library, whatever this machine has.
kit_run=("$kit_tools/lib/ld-linux-x86-64.so.2" --library-path "$kit_tools/lib")

# The libraries whose calls play something, and all that have calls for C: making/archives.sh makes an archive of each.
played=(house desk walls)
libraries=("${played[@]}" version)
