#!/usr/bin/env bash
# The package, as a stranger gets it: made by ./package, moved elsewhere, looked into, and built against from a folder outside, with
# nothing of the repository and no rt at hand. Called after the archives and the print program are built. The last line is
# 'N passed, M failed'; the exit status is 0 exactly when M is 0.
set -u
cd "$(dirname "$0")/.." || exit 2
. making/kit.sh

work=$(mktemp -d) || exit 2
trap 'kill $(jobs -p) 2>/dev/null; rm -rf "$work"' EXIT
mkdir "$work/away" "$work/logs"
package=$work/moved
version=$(making/version.sh)
warnings=(-Wall -Wextra -Wconversion -Wpedantic -Werror)

# check NAME COMMAND..: one check; what the command says is shown where it fails.
check() {
    local name=$1 said
    said=$(mktemp -p "$work")
    shift
    if "$@" >"$said" 2>&1; then
        echo "ok: $name"
    else
        echo "FAILED: $name"
        head -n 20 "$said"
    fi
}

# outside COMMAND..: in another folder, without the repository's paths.
outside() {
    (cd "$work/away" && env -i PATH=/usr/bin:/bin LC_ALL=C PKG_CONFIG_LIBDIR="$package/lib/pkgconfig" "$@")
}

# ---- what ./package does with a folder

# ends STATUS WHY WORDS..: ./package WORDS.. ends so, and says why in one line on standard error, and nothing on standard output.
ends() {
    local status=$1 why=$2 got
    shift 2
    ./package "$@" >"$work/out" 2>"$work/err"
    got=$?
    cat "$work/out" "$work/err"
    [ "$got" -eq "$status" ] && [ ! -s "$work/out" ] && [ "$(wc -l <"$work/err")" -eq 1 ] && grep -q "^package: .*$why" "$work/err"
}

helps() {
    ./package "$1" >"$work/out" 2>"$work/err" && grep -q '^usage: package DIR' "$work/out" && [ ! -s "$work/err" ]
}

# A folder with something else in it stays as it was.
refuses_a_full_folder() {
    mkdir "$work/full" && echo mine >"$work/full/file" && ends 2 "is not empty" "$work/full" && [ "$(ls -A "$work/full")" = file ] &&
        [ "$(cat "$work/full/file")" = mine ]
}

# The folder that is there is filled, and not replaced by another.
fills_an_empty_folder() {
    local same
    mkdir -m 2775 "$work/empty" && same=$(stat -c '%i %a' "$work/empty") && ./package "$work/empty" &&
        [ "$(stat -c '%i %a' "$work/empty")" = "$same" ] && diff -r --no-dereference "$work/empty" "$package"
}

# An earlier package that differs: a file that there is no more goes, a file that was altered is right again, and what is not of the
# package stays.
replaces() {
    local old=$work/empty
    echo old >"$old/lib/libhouse.so.0.9" && echo lib/libhouse.so.0.9 >>"$old/share/house/files" && sort -o "$old/share/house/files"{,} &&
        echo old >"$old/include/house.h" && echo mine >"$old/share/mine" && ./package "$old" &&
        [ "$(diff -r --no-dereference "$old" "$package")" = "Only in $old/share: mine" ]
}

# A list that names a file outside of the folder is none of ours.
refuses_a_strange_list() {
    mkdir -p "$work/strange/share/house" && echo ../full/file >"$work/strange/share/house/files" &&
        ends 2 "is not empty" "$work/strange"
}

nothing_is_left_beside() {
    [ -z "$(find "$work" -name '.house*')" ]
}

folders() {
    echo mine >"$work/file"
    check "./package --help" helps --help
    check "./package -h" helps -h
    check "./package without a folder" ends 2 usage
    check "./package with an empty name" ends 2 usage ""
    check "./package with two folders" ends 2 usage "$work/one" "$work/two"
    check "./package with an option that there is not" ends 2 "no option '--all'" --all
    check "./package into a file" ends 2 "is no folder" "$work/file"
    check "./package into a folder with something else" refuses_a_full_folder
    check "./package into a folder whose list names a file elsewhere" refuses_a_strange_list
    check "./package where nobody may write" ends 3 "cannot be written" /proc/house
    check "./package into an empty folder gives the same octets again" fills_an_empty_folder
    check "./package over an earlier package" replaces
    check "./package leaves nothing beside the folder" nothing_is_left_beside
}

# ---- what is in it

# The calls that the header declares.
declared() {
    sed -n 's/^uint64_t \(house_[a-z_]*\)(.*/\1/p' "$package/include/house.h" | sort
}

# symbols FILE TABLE: binding, section and name of all symbols that are not local.
symbols() {
    readelf -W "$2" "$1" | awk '$1 ~ /^[0-9]+:$/ && $5 != "LOCAL" { print $5, ($7 == "UND" ? "undefined" : "defined"), $8 }'
}

# has_the_calls FILE TABLE: these symbols are the calls of the header, and no other.
has_the_calls() {
    diff <(symbols "$1" "$2" | sort) <(declared | sed 's/^/GLOBAL defined /')
}

# has_no FILE TABLE PATTERN: no line of a table fits.
has_no() {
    local table
    table=$(readelf -W "$2" "$1") && ! grep -E "$3" <<<"$table"
}

# A linker takes only what a program needs.
takes_what_it_needs() {
    echo 'int main(void) { return house_version() != HOUSE_VERSION; }' >"$work/away/least.c"
    outside cc -include house.h least.c -o least $(outside pkg-config --cflags house) "$package/lib/libhouse.a" &&
        [ "$(symbols "$work/away/least" --syms | grep -o 'house_.*')" = house_version ]
}

links_in_a_row() {
    [ "$(readlink "$package/lib/libhouse.so")" = "libhouse.so.${version%.*}" ] &&
        [ "$(readlink "$package/lib/libhouse.so.${version%.*}")" = "libhouse.so.$version" ]
}

has_soname() {
    readelf -dW "$package/lib/libhouse.so" | grep -F "soname: [libhouse.so.${version%.*}]"
}

stack_is_data() {
    readelf -lW "$package/lib/libhouse.so" | grep -E 'GNU_STACK .* RW +0'
}

has_modversion() {
    [ "$(outside pkg-config --modversion house)" = "$version" ]
}

lints() {
    local page=$package/share/man/man3/house_run.3 said
    said=$(mandoc -T lint "$page" 2>&1)
    echo "$said"
    [ -z "$said" ] && grep -q "\"house $version\"" "$page"
}

# The manual page gives each code the number of the header.
codes_agree() {
    sed -n 's/^\.BR \(HOUSE_[A-Z_]*\) " (\([0-9]*\))"$/\1 = \2/p' "$package/share/man/man3/house_run.3" >"$work/codes"
    [ -s "$work/codes" ] && ! grep -vxFf <(grep -oE 'HOUSE_[A-Z_]+ = [0-9]+' "$package/include/house.h") "$work/codes"
}

# What the print program asks of a machine is what README says.
glibc_as_said() {
    local newest
    newest=$(readelf -VW "$package/bin/cueprint" | grep -oE 'GLIBC_[0-9.]+' | sort -uV | tail -n 1)
    echo "$newest"
    grep -q "glibc ${newest#GLIBC_} or later" README.md
}

# prints_as_here STATUS WORDS..: preview of the package ends so, and writes what ./preview does.
prints_as_here() {
    local status=$1
    shift
    ./preview "$@" >"$work/here" 2>&1
    outside "$package/bin/preview" "$@" >"$work/there" 2>&1
    [ "$?" -eq "$status" ] && diff "$work/here" "$work/there"
}

contents() {
    local archive=$package/lib/libhouse.a shared=$package/lib/libhouse.so
    check "the archive has the calls of the header, and no other symbol, defined or not" has_the_calls "$archive" --syms
    check "the archive has no unwind tables" has_no "$archive" --sections 'eh_frame|gcc_except_table'
    check "the shared object has the calls of the header, and no other symbol, defined or not" has_the_calls "$shared" --dyn-syms
    check "the shared object needs no other, and has no text to relocate" has_no "$shared" --dynamic 'NEEDED|TEXTREL'
    check "the shared object has no unwind tables" has_no "$shared" --sections 'eh_frame|gcc_except_table'
    check "the shared object has no executable stack" stack_is_data
    check "the shared object is called libhouse.so.${version%.*}" has_soname
    check "libhouse.so leads to libhouse.so.$version" links_in_a_row
    check "pkg-config says version $version" has_modversion
    check "the manual page has no warning, and says version $version" lints
    check "the manual page has the codes of the header" codes_agree
    check "bin/cueprint asks for the glibc of README" glibc_as_said
    check "bin/preview plays the example" prints_as_here 0
    check "bin/preview plays the example of a wall list in words" prints_as_here 0 --wall --words
    check "bin/preview says why a file is refused" prints_as_here 1 "$PWD/shows/refused_5.cue"
    check "bin/preview says its version" prints_as_here 0 --version
}

# ---- what is built against it

# alone COMPILER LANGUAGE STANDARD: the header by itself.
alone() {
    echo '#include <house.h>' | outside "$1" -x "$2" "-std=$3" "${warnings[@]}" $(outside pkg-config --cflags house) -fsyntax-only -
}

# build LANGUAGE LINK OUT [WORDS..]: calls.c as C or C++, with the archive or with the shared object. No C++ library is needed.
build() {
    local language=$1 link=$2 out=$3 compiler=(cc -std=c99) libs
    shift 3
    [ "$language" = C ] || compiler=(c++ -x c++ -std=c++11)
    case $link in
    static) libs=(-Wl,-Bstatic $(outside pkg-config --static --libs house) -Wl,-Bdynamic) ;;
    shared) libs=($(outside pkg-config --libs house) "-Wl,-rpath,$package/lib") ;;
    esac
    outside "${compiler[@]}" "${warnings[@]}" -O1 -g -pthread "$@" $(outside pkg-config --cflags house) calls.c -x none -Wl,--as-needed \
        "${libs[@]}" -o "$out"
}

# needs LINK PROGRAM: it looks for the shared object where it was linked so, and not where it has the archive.
needs() {
    case $1 in
    static) has_no "$work/away/$2" --dynamic 'libhouse' ;;
    shared) readelf -dW "$work/away/$2" | grep -F "(NEEDED)" | grep -F "[libhouse.so.${version%.*}]" ;;
    esac
}

# sanitized LANGUAGE LINK: some sanitizers do not bear every layout of memory that a kernel chooses at random, so it is fixed where that
# is allowed. Leaks are left to valgrind: to look for them here takes the right to trace.
sanitized() {
    local fixed=(setarch -R)
    outside "${fixed[@]}" true || fixed=()
    build "$1" "$2" "sane_$1_$2" -fsanitize=address,undefined -fno-sanitize-recover=all &&
        outside "${fixed[@]}" env ASAN_OPTIONS=detect_leaks=0 "./sane_$1_$2"
}

# program LANGUAGE LINK: built once, and run plainly and under valgrind; built and run once more with the sanitizers.
program() {
    local out=calls_$1_$2 name="a $1 program, $2"
    check "$name: built, warnings as errors" build "$1" "$2" "$out"
    check "$name: and linked so" needs "$2" "$out"
    check "$name: every call" outside "./$out"
    check "$name: under valgrind" outside valgrind -q --error-exitcode=9 --leak-check=full "./$out"
    check "$name: with AddressSanitizer and UndefinedBehaviorSanitizer" sanitized "$1" "$2"
}

# readme_line N: the Nth line of the package's README that builds show.c, run as it stands, builds a program that runs.
readme_line() {
    local line
    line=$(grep '^    cc show\.c ' "$package/share/doc/house/README.md" | sed -n "${1}p")
    rm -f "$work/away/show"
    cp examples/preview.c "$work/away/show.c" && outside bash -c "${line//DIR/$package}" &&
        outside ./show <shows/example.cue | diff - examples/preview.example.txt
}

# The figures are said with the verdict.
stack() {
    outside cc -std=c99 "${warnings[@]}" -O2 $(outside pkg-config --cflags house) stack.c "$package/lib/libhouse.a" -o stack &&
        outside ./stack >"$work/stack"
}

headers() {
    local compiler compilers=(cc)
    ! outside clang --version >/dev/null 2>&1 || compilers+=(clang)
    for compiler in "${compilers[@]}"; do
        check "house.h by itself has no warning: $compiler, C99" alone "$compiler" c c99
        check "house.h by itself has no warning: $compiler, C11" alone "$compiler" c c11
        check "house.h by itself has no warning: $compiler, C++11" alone "$compiler" c++ c++11
    done
}

# in_background NAME COMMAND..: its lines are shown at the end.
in_background() {
    local name=$1
    shift
    { "$@" || echo "FAILED: $name ended early"; } >"$work/logs/$name" 2>&1 &
}

programs() {
    local kind
    cp tests/package/calls.c tests/package/stack.c "$work/away/"
    for kind in "C static" "C shared" "C++ static" "C++ shared"; do in_background "$kind" program $kind; done
    headers
    check "README's first line builds a program" readme_line 1
    check "README's second line builds a program, shared" readme_line 2
    check "a program takes from the archive what it needs" takes_what_it_needs
    check "every call stays within a kilobyte of stack" stack
    echo "   octets of stack, at most: $(cat "$work/stack")"
}

everything() {
    if ! ./package "$work/first/house" >"$work/made" 2>&1; then
        cat "$work/made"
        echo "FAILED: ./package fills a folder"
        return
    fi
    echo "ok: ./package fills a folder, and makes those above it"
    mv "$work/first/house" "$package"
    programs
    folders
    contents
}

everything >"$work/logs/everything" 2>&1
wait
cat "$work"/logs/*
passed=$(cat "$work"/logs/* | grep -c '^ok: ')
failed=$(cat "$work"/logs/* | grep -c '^FAILED: ')
echo "$passed passed, $failed failed"
[ "$failed" -eq 0 ] && [ "$passed" -gt 0 ]
