#!/usr/bin/env bash
# The command ./preview itself: what it takes, how it ends, what it says of a refusal, and what it says while it builds. (What it plays:
# tests/shows.sh.) The last line is 'N passed, M failed'; the exit status is 0 exactly when M is 0.
set -u
cd "$(dirname "$0")/.." || exit 2

. tests/holds.sh

# ---- what it takes

./preview --help >"$work/usage"
cp shows/ties.cue "$work/-ties.cue"
version="preview $(making/version.sh), plays cue files of versions 1 to 2"

verdict "--help tells every option and every exit status" \
    "$(for word in --wall --words -- -h --help --version 'status: 0' '; 1 ' '; 2 ' '; 3 ' '; 4 '; do grep -qF -e "$word" "$work/usage" || echo "$word"; done)"
holds "-h is --help" 0 "$work/usage" 0 ./preview -h
holds "--version is the header's" 0 <(echo "$version") 0 ./preview --version
holds "- is standard input" 0 shows/ties.txt 0 bash -c './preview - <shows/ties.cue'
holds "- is standard input of a wall list" 0 shows/foyer.txt 0 bash -c './preview --wall - <shows/foyer.wall'
holds "a file behind --" 0 shows/ties.txt 0 bash -c 'cd "$1" && "$OLDPWD/preview" -- -ties.cue' preview "$work"
holds "options behind the file" 0 shows/foyer.words 0 ./preview shows/foyer.wall --words --wall
holds "in words, no file named: the example" 0 shows/example.words 0 ./preview --words
for wrong in -x --wal --words=1 -wall --words-; do
    holds "no option $wrong" 2 "$work/nothing" <(echo "preview: there is no option '$wrong': preview --help has them all") ./preview "$wrong"
done
holds "two files" 2 "$work/nothing" 1 ./preview shows/ties.cue shows/example.cue
holds "a file that is not there, of any name" 2 "$work/nothing" <(echo "preview: cannot read 'no/writing.cue': No such file or directory") ./preview no/writing.cue
holds "an empty name" 2 "$work/nothing" 1 ./preview ''
holds "a refused file in words" 1 "$work/nothing" shows/refused_6.why ./preview --words shows/refused_6.cue

# ---- a printout that cannot be written is no refusal

full="preview: the printout cannot be written: No space left on device"
closed="preview: the printout cannot be written: standard output is closed"
for words in shows/example.cue "--words shows/example.cue" shows/refused_7.cue --help --version; do
    holds "no room for preview $words" 4 "$work/nothing" <(echo "$full") bash -c "./preview $words >/dev/full"
    holds "standard output is closed to preview $words" 4 "$work/nothing" <(echo "$closed") bash -c "./preview $words >&-"
done
holds "a reader who has gone away" 141 "$work/nothing" 0 bash -c './preview | true; exit "${PIPESTATUS[0]}"'

# ---- what it cannot work with

# with_broken COMMAND SAID WORDS..: WORDS.., where a command says something and fails.
mkdir "$work/broken"
with_broken() {
    local command=$1 said=$2 status
    shift 2
    printf '#!/bin/sh\necho "%s" >&2\nexit 1\n' "$said" >"$work/broken/$command"
    chmod +x "$work/broken/$command"
    PATH=$work/broken:$PATH "$@"
    status=$?
    rm "$work/broken/$command"
    return $status
}
holds "words without od" 3 "$work/nothing" <(printf '%s\n' "od: no" "preview: the run cannot be said in words") with_broken od "od: no" ./preview --words
holds "a refusal without od" 3 shows/refused_6.txt <(printf '%s\n' "od: no" "preview: the refusal 6 2 cannot be said in words") \
    with_broken od "od: no" ./preview shows/refused_6.cue
holds "no folder to work in" 3 "$work/nothing" \
    <(echo "preview: there is no room to work in, in $work/missing: no folder can be made there") env TMPDIR="$work/missing" ./preview
holds "standard input that cannot be read" 2 "$work/nothing" <(echo "preview: cannot read standard input: Is a directory") bash -c './preview - <shows'
full_folder="head: error writing 'standard output': No space left on device"
with_broken head "$full_folder" ./preview >"$work/out" 2>"$work/err"
verdict "no room to work in" "$([ $? -eq 3 ] && grep -qE '^preview: there is no room to work in, in .*: No space left on device$' "$work/err" || cat "$work/err")"

# ---- a refusal says which of its causes it was

# refused CODE SENTENCE WORDS..: preview WORDS.. prints this refusal and says so.
refused() {
    local code=$1 sentence=$2
    shift 2
    echo "NO $code" >"$work/no"
    echo "preview: refused: $sentence." >"$work/why"
    holds "preview $* is refused: $sentence" 1 "$work/no" "$work/why" ./preview "$@"
}
head -c 51 shows/tenths.cue >"$work/cut.cue"
head -c 55 shows/foyer.wall >"$work/cut.wall"
head -c 1 shows/example.cue >"$work/one.cue"
(cat shows/example.cue && head -c 20000 /dev/zero) >"$work/long.cue"
refused "1 0" "the file has 51 octets; at least 60 are needed" "$work/cut.cue"
refused "1 0" "the file has 55 octets; at least 56 are needed" --wall "$work/cut.wall"
refused "1 0" "the file has 1 octet; at least 52 are needed" "$work/one.cue"
refused "4 0" "the file has 16,449 octets or more; with 3 inputs 76 are allowed" "$work/long.cue"
refused "4 0" "the file has 272 octets; with 27 inputs 268 are allowed (a wall list is played with --wall)" shows/foyer.wall
refused "4 0" "the file has 76 octets; with 3 inputs 80 are allowed (a cue file is played without --wall)" --wall shows/example.cue

# says OFFSET OCTETS CODE SENTENCE [SHOW]: with these octets from an offset on, the show (else the example) is refused so.
says() {
    local at=$1 octets=$2 code=$3 sentence=$4 show=${5:-example.cue} words=()
    [ "${show##*.}" != wall ] || words=(--wall)
    cp "shows/$show" "$work/damaged"
    printf "$octets" | dd of="$work/damaged" bs=1 seek="$at" conv=notrunc status=none
    refused "$code" "$sentence" "${words[@]}" "$work/damaged"
}
says 0 '\0\3' "2 0" "the version (octets 0-1 of the file) is 3; 1 and 2 are allowed"
says 2 '\1\1' "3 0" "the count of actuators (octets 2-3 of the file) is 257; 1 is allowed"
says 4 '\377\377\377\377' "4 0" "the offset of parameters (octets 4-7 of the file) is 4,294,967,295; 20 is allowed"
says 8 '\0\0\10\1' "4 0" "the count of inputs (octets 8-11 of the file) is 2,049; 0 to 2,048 are allowed"
says 11 '\2' "4 0" "the file has 76 octets; with 2 inputs 68 are allowed"
says 15 '\74' "4 0" "the offset of inputs (octets 12-15 of the file) is 60; 52 is allowed"
says 15 '\64' "4 0" "the offset of inputs (octets 12-15 of the file) is 52; 60 is allowed" tenths.cue
says 16 '\0\15\57\1' "4 0" "the end time (octets 16-19 of the file) is 864,001; 0 to 864,000 are allowed"
says 7 '\25\0\0\0\4\0\0\0\65' "4 0" "the offset of parameters (octets 4-7 of the file) is 21; 20 is allowed; the offset of inputs (octets 12-15 of the file) is 53; 52 is allowed; the file has 76 octets; with 4 inputs 84 are allowed"
says 24 '\0\0' "5 4" "octet 4 of the parameters (octet 24 of the file): TimedOnDuration is 0; 1 to 65,535 seconds are allowed"
says 32 '\0\12\0\0' "5 12" "octet 12 of the parameters (octet 32 of the file): PrewarningDuration is 655,360; 0 to 655,350 tenths of a second are allowed" tenths.cue
says 28 '\3' "5 8" "octet 8 of the parameters (octet 28 of the file): BehaviourAtLocking is 3; 0 (keep), 1 (off) and 2 (on) are allowed"
says 29 '\4' "5 9" "octet 9 of the parameters (octet 29 of the file): BehaviourAtUnlocking is 4; 0 (keep), 1 (off), 2 (on) and 3 (as before locking) are allowed"
says 30 '\5' "5 10" "octet 10 of the parameters (octet 30 of the file): BusFailureMode is 5; 0 (keep), 1 (off) and 2 (on) are allowed"
says 31 '\6' "5 11" "octet 11 of the parameters (octet 31 of the file): BusReturnMode is 6; 0 (keep), 1 (off) and 2 (on) are allowed"
says 40 '\7' "5 20" "octet 20 of the parameters (octet 40 of the file): PowerReturnMode is 7; 0 (as before the failure), 1 (off) and 2 (on) are allowed" tenths.cue
says 33 '\2' "5 13" "octet 13 of the parameters (octet 33 of the file): SceneLearningModeEnable is 2; 0 (no) and 1 (yes) are allowed"
says 35 '\1' "5 15" "octet 15 of the parameters (octet 35 of the file): it is 1; 0 is allowed"
says 36 '\100' "5 16" "octet 16 of the parameters (octet 36 of the file): the number of scene entry 0 is 64; 0 to 63, or 255 for an unused entry, are allowed"
says 36 '\1\4' "5 17" "octet 17 of the parameters (octet 37 of the file): the flags of scene entry 0 are 4; 0 to 3 are allowed"
says 39 '\1' "5 19" "octet 19 of the parameters (octet 39 of the file): the flags of scene entry 1, which is unused, are 1; 0 is allowed"
says 38 '\5\0\6\0\5' "5 22" "octet 22 of the parameters (octet 42 of the file): scene entry 3 has number 5, and so has entry 1; each number is allowed once"
says 56 '\11' "6 0" "input 0, counted from 0 (octets 52-59 of the file): it has kind 9; 1 to 8 are allowed"
says 64 '\2\2' "6 1" "input 1, counted from 0 (octets 60-67 of the file): timed light has value 2; 0 and 1 are allowed"
says 64 '\3\100' "6 1" "input 1, counted from 0 (octets 60-67 of the file): scene has value 64; 0 to 63, and 128 to 191 to learn, are allowed"
says 64 '\4\4' "6 1" "input 1, counted from 0 (octets 60-67 of the file): force has value 4; 0 to 3 are allowed"
says 64 '\13\1' "6 1" "input 1, counted from 0 (octets 60-67 of the file): it has kind 11; 1 to 8 are allowed (a wall list is played with --wall)"
says 64 '\1\7\1\2' "6 1" "input 1, counted from 0 (octets 60-67 of the file): switch has value 7; 0 and 1 are allowed; its octet 6 is 1; 0 is allowed; its octet 7 is 2; 0 is allowed"
says 56 '\15\1' "6 0" "input 0, counted from 0 (octets 52-59 of the file): it has kind 13; 1 to 8, 11 and 12 are allowed" foyer.wall
says 56 '\13\2' "6 0" "input 0, counted from 0 (octets 52-59 of the file): button 1 has value 2; 0 and 1 are allowed" foyer.wall
says 52 '\0\0\3\351' "7 0" "input 0, counted from 0 (octets 52-59 of the file): timed light has stamp 1,001 (0:01:40.1); 0 to 1,000 (0:01:40.0), the end time, are allowed"
says 68 '\0\0\2\273' "7 2" "input 2, counted from 0 (octets 68-75 of the file): switch has stamp 699 (0:01:09.9); 700 (0:01:10.0), that of the input before, to 1,000 (0:01:40.0), the end time, are allowed"
says 270 '\4' "11 2" "the action of the rising edge of button 2 (octet 2 of the last four) is 4; 0 to 3 are allowed" foyer.wall
says 271 '\4' "11 3" "the action of the falling edge of button 2 (octet 3 of the last four) is 4; 0 to 3 are allowed" foyer.wall

# every octet of a small file, turned round: what is refused is explained
explained() {
    local show=$1 size at octet why bad=
    size=$(wc -c <"$show")
    for ((at = 0; at < size; at++)); do
        cp "$show" "$work/damaged"
        octet=$(od -An -tu1 -j "$at" -N 1 "$show")
        printf "\\$(printf %o $((255 - octet)))" | dd of="$work/damaged" bs=1 seek="$at" conv=notrunc status=none
        why=$(./preview "$work/damaged" 2>&1 >/dev/null)
        [[ -z $why || $why =~ ^preview:\ refused:\ .*allowed( once)?\.$ ]] || bad="$bad; octet $at: $why"
    done
    verdict "every octet of $show, turned round: what is refused is explained" "$bad"
}
explained shows/example.cue

# ---- what it says while it builds: over a small repository, with a stand-in for rt that takes its time to prove nothing

mkdir -p "$work/repository/crates"/{base,cueprint} "$work/bin"
cp -r preview words making shows include "$work/repository/"
printf '# crates\nbase:\nrules: base\nother: base\nhouse_c staticlib: other\ncueprint: rules io\n' >"$work/repository/crates.txt"
: >"$work/repository/crates/base/lib.rt"
cat >"$work/bin/rt" <<RT
#!/bin/sh
[ "\$*" = run ] && [ "\${PWD##*/}" = cueprint ] || exit 2
echo "rt: chose --jobs 2 for rules"
echo "fn rules::x: proved"
echo "logic=proved functions=1 sum=0123456789abcdef"
echo "rt: chose --jobs 2 for cueprint"
[ ! -f ../../fails ] || { echo "logic=not-proved"; exit 1; }
echo "logic=proved functions=2 sum=0123456789abcdef"
echo "rt: running out/cueprint; to give it other input, run that file yourself"
mkdir -p out && cp "$PWD/crates/cueprint/out/cueprint" out/ && out/cueprint
RT
chmod +x "$work/bin/rt"
first="preview: cueprint is made first: 3 crates, proved where they are new or changed; from nothing that takes minutes"
last="preview: all is proved and cueprint made, in N s"
without_seconds() {
    sed -E 's/\([0-9]+ s\)/(N s)/g; s/, in [0-9]+ s/, in N s/'
}
building() { # WORDS..: with the stand-in; what it says on standard error, without the seconds that it took
    local status
    (cd "$work/repository" && RATTLE_HOME=$kit_home PATH=$work/bin:$PATH "$@" 2>"$work/said")
    status=$?
    without_seconds <"$work/said" >&2
    return $status
}
kit_home=$(dirname "$(dirname "$(readlink -f "$(command -v rt)")")")
printf '%s\n' "$first" "preview: rules is proved (N s), 1 left" "preview: cueprint is proved (N s), 0 left" "$last" >"$work/log"
holds "a line for each crate that is proved" 0 shows/example.txt "$work/log" building ./preview
holds "nothing is built twice" 0 shows/example.txt 0 building ./preview
touch "$work/repository/crates/base/lib.rt" "$work/repository/fails"
holds "a proof that fails" 3 "$work/nothing" 8 building ./preview
rm -r "$work/repository/fails" "$work/repository/crates/cueprint/out"
# on a terminal the lines of the crates are one line, written over and over and cleared in the end (script waits for its input, so it is
# given one that never comes)
mkfifo "$work/never"
building script -qec "./preview 2>&1 >/dev/null" /dev/null <>"$work/never" | without_seconds >"$work/terminal"
{
    printf '%s\r\n' "$first"
    printf '%-60s\r' "preview: rules is proved (N s), 1 left" "preview: cueprint is proved (N s), 0 left" ""
    printf '%s\r\n' "$last"
} >"$work/rewritten"
verdict "on a terminal one line that is rewritten" "$(cmp "$work/terminal" "$work/rewritten" 2>&1)"
tally
