# A run in words: one line for each thing that happens, in the order of the run, and a summary. The second file that awk reads is the
# printout of an accepted list with its phases (crates/cueprint). What is said of light, and when, comes from its lines; from the octets of
# the file come the names of its inputs, and whether a timed light has a warning.

BEGIN {
    # by the answer, from 1 on: why an input is dropped, and nothing where it is not
    last_reason = split(",a force stands,the house is locked,the bus is down,the power is down", reasons, ",")
    noted = 6
}

# of the printout: a timer or the end is told by what comes next
FNR == 1 { choose_row() }
held && $1 != "E" { say_timer() }
$1 == "R" { record($2, $3) }
$1 == "S" { sent = $3 ? ", sends On" : ", sends Off" }
$1 == "A" { take_answer($2, $3) }
$1 == "P" { phase = $3; until = $4; clock = $2; after_phase() }
$1 == "E" { say_end() }

# The light is what the last record says; the time that it was lit is added up from record to record.
function record(stamp, light) {
    if (lit) lit_for += stamp - lit_since
    lit = light > 0
    lit_since = stamp
}

function take_answer(i, answer) {
    read_input(i)
    answered = 1
    given = answer
    answers[answer]++
    played++
    if (is_dropped(answer)) dropped++
}

function is_dropped(answer) {
    return reasons[answer] != ""
}

# A phase is printed at the start, after each input, and after each timer and at the end.
function after_phase() {
    if (!started) say(0, "(start) " house())
    else if (answered) say_input()
    else held = 1
    started = 1
    answered = 0
}

function say(stamp, words) {
    print moment(stamp) "  " words
}

function say_timer() {
    say(clock, "(timer) " (phase == 5 ? "warning begins, dark at " moment(until) : house()))
    held = 0
}

function say_input() {
    say(stamp, input_name() ": " outcome())
    sent = ""
}

# What the house does now, and what it will do by itself.
function house() {
    if (phase == 0) return "dark"
    if (phase == 1) return "lit"
    if (phase == 2) return "lit at " moment(until)
    if (phase == 3) return "lit at " moment(until) ", for a while"
    if (phase == 4) return "lit, " (has_warning() ? "warning" : "dark") " at " moment(until)
    if (phase == 5) return "lit, in its warning, dark at " moment(until)
    return "dark at " moment(until)
}

# What it does at the end, and what it would have done: that is not played any more.
function house_at_end() {
    if (phase <= 1) return house()
    if (phase <= 3) return "dark, would be lit at " moment(until)
    if (phase == 4 && has_warning()) return "lit, its warning would begin at " moment(until)
    return "lit, would be dark at " moment(until)
}

# A timed light that ends without a warning goes dark at once.
function has_warning() {
    return number(header + 3 * width, width) > 0
}

function outcome() {
    if (is_dropped(given)) return "dropped, " reasons[given]
    if (kind > 8 && sent == "") return "sends nothing"
    if (given == 1) return "changes nothing"
    if (given == noted) return "noted, stays " house()
    if (kind == 3 && value >= 128) return "taken, learnt as " (lit ? "on" : "off")
    return "taken, " house()
}

# An input by its name in the hall.
function input_name() {
    if (kind == 1) return value ? "On" : "Off"
    if (kind == 2) return value ? "Timed start" : "Timed stop"
    if (kind == 3) return (value >= 128 ? "Learn scene " : "Scene ") value % 128
    if (kind == 4) return value == 3 ? "Force On" : value == 2 ? "Force Off" : "Force released"
    if (kind == 5) return value ? "Lock" : "Unlock"
    if (kind == 6) return value ? "Night" : "Day"
    if (kind > 8) return "Button " kind - 10 (value ? " pressed" : " let go") sent
    return (kind == 7 ? "Bus" : "Power") (value ? " returns" : " fails")
}

function say_end(    answer) {
    say(clock, "(end) " house_at_end())
    record(clock, 0)
    print ""
    print "The house was lit for " moment(lit_for) " of " moment(clock) "."
    print some(played, WALL ? "input" : "cue") ": " answers[0] + 0 " changed something, " answers[1] + 0 " changed nothing, " \
        (answers[noted] ? answers[noted] " noted, " : "") dropped + 0 " dropped" (dropped ? ":" : ".")
    for (answer = 1; answer <= last_reason; answer++) if (is_dropped(answer) && answers[answer]) print "  " answers[answer] " because " reasons[answer]
}
