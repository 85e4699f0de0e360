# The proved code as the kit's compiler hands it to its back end, for what compiles it otherwise than the archives do. Source it after
# making/kit.sh, from the repository's root, where the archives are made (making/archives.sh).
modules=target/modules

# listening_tools DIR NAME: the kit's tools in a new folder; their clang first keeps a copy of the bitcode that it is given, and the words that
# say how to compile it, one a line.
listening_tools() {
    local tools=$1 kept=$PWD/$modules/$2
    mkdir "$tools" "$tools/bin"
    ln -s "$kit_tools/lib" "$tools/lib"
    ln -s "$kit_tools"/bin/* "$tools/bin/"
    rm "$tools/bin/clang"
    cat >"$tools/bin/clang" <<CLANG
#!/bin/bash
words=()
for word in "\$@"; do
    case \$word in
    *.bc) cp "\$word" ${kept@Q}.bc ;;
    -c | -x | ir | -o | *.o | --sysroot=*) ;;
    *) words+=("\$word") ;;
    esac
done
printf '%s\n' "\${words[@]}" >${kept@Q}.words
exec ${kit_tools@Q}/bin/clang "\$@"
CLANG
    chmod +x "$tools/bin/clang"
}

# is_current FILE: whether it is there, and neither a source nor the compiler is newer.
is_current() {
    [ -f "$1" ] && [ -z "$(find crates "$kit_home/bin/rattle" -path 'crates/*/out' -prune -o \( -name '*.rt' -o -name rattle \) -newer "$1" -print -quit)" ]
}

# proved_module NAME: makes target/modules/NAME.bc (LLVM bitcode) and NAME.words of the archive of this library. That proves its crate once
# more, over what `rt lib` kept, so what is up to date stays.
proved_module() {
    local name=$1 work words=() crate status
    ! is_current "$modules/$name.bc" || return 0
    mkdir -p "$modules"
    work=$(mktemp -d) || return 1
    listening_tools "$work/tools" "$name"
    for crate in $(sed -n "s/^${name}_c staticlib: *//p" crates.txt); do words+=(--extern "$crate=../$crate/out/rlib/$crate.rlib"); done
    for crate in crates/*/out/rlib; do words+=(-L "dependency=../../$crate"); done
    (cd "crates/${name}_c" && "$kit_home/bin/rattle" build --crate-name "${name}_c" src/lib.rt --extern "std=$kit_home/rlibs/std.rlib" "${words[@]}" \
        -L "dependency=$kit_home/rlibs" --antt-project "$kit_home/rattle/logic/antt-project.json" --logic-built "$kit_home/logic_built" \
        --incremental out/incremental --toolchain "$work/tools" --backend llvm --crate-type staticlib -o "$work/$name.a") >"$modules/$name.log" 2>&1
    status=$?
    rm -rf "$work"
    return "$status"
}

# proved_object OUT.o NAME WORDS..: the module, compiled as for the archive, and as these words say besides.
proved_object() {
    local object=$1 name=$2 words
    shift 2
    proved_module "$name" && mapfile -t words <"$modules/$name.words" &&
        "$kit_tools/bin/clang" "${words[@]}" "$@" -c -x ir "$modules/$name.bc" -o "$object" 2>>"$modules/$name.log" || { cat "$modules/$name.log"; return 1; }
}
