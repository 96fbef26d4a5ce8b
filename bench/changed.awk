# Changes a tenth of the trains of an extract: one date less, all times 12 minutes later, other platforms, another UID, or another identity.
# another UID, or another identity.

# later TEXT: a time 12 minutes later
function later(text, minutes) {
    if (text !~ /^[0-9][0-9][0-9][0-9]/ || text == "0000") {
        return text
    }
    minutes = (substr(text, 1, 2) * 60 + substr(text, 3, 2) + 12) % 1440
    return sprintf("%02d%02d", minutes / 60, minutes % 60) substr(text, 5)
}

function put(column, text) {
    line = substr(line, 1, column - 1) text substr(line, column + length(text))
}

function move(column, width) {
    put(column, later(substr(line, column, width)))
}

{
    line = $0
    kind = substr(line, 1, 2)
}
kind == "BS" {
    if (substr(line, 4, 6) != uid) {
        uid = substr(line, 4, 6)
        trains++
    }
    way = trains % 10 ? "none" : substr("date     later    platform uid      identity ", 1 + 9 * (int(trains / 10) % 5), 9)
    sub(/ +$/, "", way)
    cancellation = ""
    if (way == "date" && substr(line, 80, 1) == "P") {
        date = substr(line, 10, 6)
        cancellation = sprintf("%-79sC", "BSN" uid date date substr(line, 22, 7))
    }
    if (way == "uid") {
        put(4, tolower(substr(uid, 1, 1)))
    }
    if (way == "identity" && substr(line, 80, 1) != "C") {
        put(33, "9Z99")
    }
}
way == "later" && kind == "LI" {
    move(11, 5)
    move(16, 5)
    move(21, 5)
    move(26, 4)
    move(30, 4)
}
way == "later" && (kind == "LO" || kind == "LT") {
    move(11, 5)
    move(16, 4)
}
way == "platform" && kind == "LI" {
    put(34, "17 ")
}
{
    print line
}
kind == "LT" && cancellation != "" {
    print cancellation
}
