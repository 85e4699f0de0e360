# A cue file or a wall list, as octets, and the names of what stands in it. The first file that awk reads is the octets, as `od -An -v -tu1`
# prints them; WALL is 1 for a wall list. What is said here is said of the file alone: what becomes of it is for the print program.

BEGIN {
    split("switch,timed light,scene,force,lock,night,bus,power,,,button 1,button 2", kinds, ",")
    split("OnDelay,OffDelay,TimedOnDuration,PrewarningDuration", times, ",")
    header = 20
    modes = 8
    entries = 8
}

# the octets, wherever od breaks its lines
FNR == NR {
    for (i = 1; i <= NF; i++) octet[size++] = $i
    next
}

# The number in so many octets, most significant first.
function number(at, count,    i, n) {
    n = 0
    for (i = 0; i < count; i++) n = 256 * n + octet[at + i]
    return n
}

# The row of the file's version: how many octets a time has, what a unit of it lasts, the longest; and where the parts stand.
function choose_row() {
    version = number(0, 2)
    width = version == 2 ? 4 : 2
    unit = version == 2 ? "tenths of a second" : "seconds"
    longest = version == 2 ? 655350 : 65535
    modes_at = 4 * width
    inputs = header + modes_at + modes + 2 * entries
    behind = WALL ? 4 : 0
}

# What input i says, from its octets.
function read_input(i,    at) {
    at = inputs + 8 * i
    stamp = number(at, 4)
    kind = octet[at + 4]
    value = octet[at + 5]
}

# A number with a comma between its thousands.
function figures(n,    text) {
    text = sprintf("%.0f", n)
    while (match(text, /[0-9][0-9][0-9][0-9]($|,)/)) text = substr(text, 1, RSTART) "," substr(text, RSTART + 1)
    return text
}

# So many of something.
function some(n, what) {
    return figures(n) " " what (n == 1 ? "" : "s")
}

# A stamp as h:mm:ss.t.
function moment(stamp) {
    return sprintf("%d:%02d:%02d.%d", stamp / 36000, stamp / 600 % 60, stamp / 10 % 60, stamp % 10)
}
