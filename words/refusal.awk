# Why a file was refused, in words: CODE and PLACE are the print program's, and the octets say which of the causes of that code it was.
# MOST is how many octets were read at most: a file that has as many may have more. Octets, entries and inputs are counted from 0.

BEGIN {
    with_wall = " (a wall list is played with --wall)"
}

END {
    choose_row()
    print meaning(CODE, PLACE)
}

function meaning(code, place) {
    if (code == 1) return length_found() "; at least " inputs + behind " are needed"
    if (code == 2) return found("the version", 0, 2, "1 and 2 are")
    if (code == 3) return found("the count of actuators", 2, 2, "1 is")
    if (code == 4) return layout()
    if (code == 5) return "octet " place " of the parameters (octet " header + place " of the file): " parameter(place)
    if (code == 6) return input_named(place) ": " wrong_input(place)
    if (code == 7) return input_named(place) ": " wrong_stamp(place)
    if (code == 11) return "the action of " edge(place) " (octet " place " of the last four) is " octet[size - behind + place] "; 0 to 3 are allowed"
    return "refusal number " code ", place " place
}

# A number of the header that is not as it must be.
function found(what, at, count, allowed) {
    return what " (octets " at "-" at + count - 1 " of the file) is " figures(number(at, count)) "; " allowed " allowed"
}

function length_found() {
    return "the file has " (size < MOST ? some(size, "octet") : figures(MOST) " octets or more")
}

# All that is wrong with the layout, in the order of the header.
function layout(    n, all, whole) {
    n = number(8, 4)
    whole = inputs + 8 * n + behind
    if (number(4, 4) != header) all = all "; " found("the offset of parameters", 4, 4, header " is")
    if (n > 2048) all = all "; " found("the count of inputs", 8, 4, "0 to 2,048 are")
    if (number(12, 4) != inputs) all = all "; " found("the offset of inputs", 12, 4, inputs " is")
    if (number(16, 4) > 864000) all = all "; " found("the end time", 16, 4, "0 to 864,000 are")
    if (n <= 2048 && size != whole) all = all "; " length_found() "; with " some(n, "input") " " figures(whole) " are allowed" other_list(size - whole)
    return substr(all, 3)
}

# The four octets by which a wall list is longer than a cue file are most likely a list of the other sort.
function other_list(more) {
    if (!WALL && more == 4) return with_wall
    if (WALL && more == -4) return " (a cue file is played without --wall)"
    return ""
}

function parameter(place) {
    if (place < modes_at) return wrong_time(place / width)
    if (place < modes_at + modes) return wrong_mode(place - modes_at)
    return wrong_scene(place - modes_at - modes)
}

# Only TimedOnDuration may not be 0.
function wrong_time(which) {
    return times[which + 1] " is " figures(number(header + width * which, width)) "; " (which == 2) " to " figures(longest) " " unit " are allowed"
}

function wrong_mode(place,    names, allowed) {
    split("BehaviourAtLocking,BehaviourAtUnlocking,BusFailureMode,BusReturnMode,PowerReturnMode,SceneLearningModeEnable", names, ",")
    split("0 (keep), 1 (off) and 2 (on) are;0 (keep), 1 (off), 2 (on) and 3 (as before locking) are;0 (keep), 1 (off) and 2 (on) are;" \
        "0 (keep), 1 (off) and 2 (on) are;0 (as before the failure), 1 (off) and 2 (on) are;0 (no) and 1 (yes) are;0 is;0 is", allowed, ";")
    return (place < 6 ? names[place + 1] : "it") " is " octet[header + modes_at + place] "; " allowed[place + 1] " allowed"
}

# A scene entry has its number in its first octet and its flags in the second.
function wrong_scene(place,    entry, at, earlier) {
    entry = int(place / 2)
    at = header + modes_at + modes
    earlier = entry_with(octet[at + 2 * entry], at)
    if (place % 2 == 1 && octet[at + place - 1] == 255) return "the flags of scene entry " entry ", which is unused, are " octet[at + place] "; 0 is allowed"
    if (place % 2 == 1) return "the flags of scene entry " entry " are " octet[at + place] "; 0 to 3 are allowed"
    if (earlier < entry) return "scene entry " entry " has number " octet[at + place] ", and so has entry " earlier "; each number is allowed once"
    return "the number of scene entry " entry " is " octet[at + place] "; 0 to 63, or 255 for an unused entry, are allowed"
}

# The first entry that has a number.
function entry_with(scene, at,    entry) {
    for (entry = 0; octet[at + 2 * entry] != scene; entry++);
    return entry
}

function input_named(i) {
    return "input " i ", counted from 0 (octets " inputs + 8 * i "-" inputs + 8 * i + 7 " of the file)"
}

# All that is wrong with an input.
function wrong_input(i,    at, all, k) {
    read_input(i)
    at = inputs + 8 * i
    if (!is_kind(kind)) all = "; it has kind " kind "; 1 to 8" (WALL ? ", 11 and 12" : "") " are allowed" (kinds[kind] == "" ? "" : with_wall)
    else if (!is_value(kind, value)) all = "; " kinds[kind] " has value " value "; " values(kind) " are allowed"
    for (k = 6; k <= 7; k++) if (octet[at + k] != 0) all = all "; its octet " k " is " octet[at + k] "; 0 is allowed"
    return substr(all, 3)
}

function is_kind(kind) {
    return kinds[kind] != "" && (kind <= 8 || WALL)
}

function is_value(kind, value) {
    return kind == 3 ? value % 128 < 64 : value <= (kind == 4 ? 3 : 1)
}

function values(kind) {
    return kind == 3 ? "0 to 63, and 128 to 191 to learn," : kind == 4 ? "0 to 3" : "0 and 1"
}

function wrong_stamp(i,    first) {
    first = i > 0 ? told(number(inputs + 8 * (i - 1), 4)) ", that of the input before," : "0"
    read_input(i)
    return kinds[kind] " has stamp " told(stamp) "; " first " to " told(number(16, 4)) ", the end time, are allowed"
}

function told(stamp) {
    return figures(stamp) " (" moment(stamp) ")"
}

# The edge that an octet of a wall list's actions is for.
function edge(place) {
    return "the " (place % 2 ? "falling" : "rising") " edge of button " int(place / 2) + 1
}
