# Says what the last line of a build's events means, and how far the build is. A line has the clock in seconds and `begun`, `proved` or
# `kept` with the name of a crate, each once; or `said` with a text; the first has `started`. It is given who speaks, the needed crates, the
# number of processors, the file of weights and crates.txt. How long the build still takes is told from what is left for all processors and
# from the longest chain of crates that wait for each other, each by its speed so far, beside a guess that counts as two minutes.

function span(seconds) {
    return seconds < 100 ? int(seconds) " s" : int(seconds / 60 + 0.5) " min"
}

function weight(name) {
    return name in weights ? weights[name] : 60
}

# The part of its weight that a crate has had in a second so far.
function pace() {
    return (120 + proved) / (120 + took)
}

# What a crate that isn't done has had of its weight, by the time since it began: never all of it.
function had(name,    so_far) {
    so_far = name in begun ? pace() * ($1 - begun[name]) : 0
    return so_far < 0.9 * weight(name) ? so_far : 0.9 * weight(name)
}

# The longest chain from a crate up to the program, in what is left of the weights.
function chain(name,    above, count, i, longest) {
    if (!(name in chains)) {
        count = split(users[name], above, " ")
        for (i = 1; i <= count; i++) if (chain(above[i]) > longest) longest = chain(above[i])
        chains[name] = longest + (name in done ? 0 : weight(name) - had(name))
    }
    return chains[name]
}

function remaining(    name, left, side_by_side, in_turn, longest) {
    for (name in needed) {
        if (chain(name) > longest) longest = chain(name)
        if (!(name in done)) {
            left += weight(name) - had(name)
            work += had(name)
        }
    }
    side_by_side = left / ((0.9 * processors * 120 + work) / (120 + $1 - start))
    in_turn = longest / pace()
    return side_by_side > in_turn ? side_by_side : in_turn
}

# Reads which of the needed crates use which.
function read_rows(    line, part, word, below, count, k) {
    while ((getline line < rows) > 0)
        if (line !~ /^#/ && split(line, part, ":") > 1) {
            split(part[1], word, " ")
            count = split(part[2], below, " ")
            for (k = 1; k <= count; k++)
                if (word[1] in needed && below[k] in needed) users[below[k]] = users[below[k]] " " word[1]
        }
}

BEGIN {
    count = split(crates, listed, " ")
    for (i = 1; i <= count; i++) needed[listed[i]] = 1
    while ((getline line < list) > 0)
        if (line !~ /^#/ && split(line, part, " ") == 2) weights[part[1]] = part[2]
    read_rows()
}
$2 == "started" { start = $1 }
$2 == "kept" { is_new = !($3 in begun) }
$2 == "begun" || $2 == "kept" && is_new { begun[$3] = $1; begins++ }
$2 == "proved" || $2 == "kept" { done[$3] = 1; ends++ }
$2 == "proved" { work += weight($3); proved += weight($3); took += $1 - begun[$3] }
END {
    told = span($1 - start) " so far" (ends < count ? ", about " span(remaining()) " more" : "")
    place = speaker ": " begins " of " count ": " $3
    if ($2 == "begun") print place " begins; " told
    if ($2 == "kept" && is_new) print place " was proved before; " told
    if ($2 == "kept" && !is_new) printf "%s: %s was proved before, %d of %d are done; %s\n", speaker, $3, ends, count, told
    if ($2 == "proved") printf "%s: %s is proved, %d of %d are done; %s\n", speaker, $3, ends, count, told
    if ($2 == "said") { sub(/^[0-9]+ said /, ""); print speaker ": " $0 }
}
