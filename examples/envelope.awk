# What examples/envelope prints. It reads no input: its words are TABLE PROGRAM FROM TO STEP WORDS. Outside of what is proved: floating
# point.

function failed(text) {
    print "envelope: " text | "cat >&2"
    exit 1
}

# A word, as a shell reads it.
function quoted(word) {
    gsub(/'/, "'\\''", word)
    return "'" word "'"
}

# Searches between two pressures in Pa at a temperature, and keeps the bracket. It leaves the kinds of the two ends in `kinds`, or
# nothing there where the search was refused or stayed open.
function searched(command, kelvin, low, high,    call, line, field, answer) {
    call = program " " command " T=" kelvin " lo=" low " hi=" high " width=" int(high / 50) words " <" table
    kinds = ""
    while ((call | getline line) > 0) {
        split(line, field, " ")
        if (answer == "") {
            answer = field[1]
            if (answer == "bracket") {
                keep(substr(command, 1, length(command) - 2), kelvin, field[3] / 100000, field[4] / 100000)
            }
        } else if (field[1] == "ends") {
            kinds = field[2] " " field[3]
        }
        if (answer == "refused" && line !~ / at=/) {
            failed(line)
        }
    }
    close(call)
    if (answer == "") {
        failed("no answer of " call)
    }
    open += answer == "open"
    refused += answer == "refused"
    return answer
}

function keep(side, kelvin, low, high) {
    bars++
    title[bars] = side ", " kelvin " K, " low " to " high " bar"
    style[bars] = "stroke-width=\"5\" stroke=\"" (side == "dew" ? "#c00" : "#080") "\""
    at[bars] = kelvin
    bottom[bars] = low
    top[bars] = high
    highest = high > highest ? high : highest
}

# The least of 1, 2 and 5 times a power of ten that parts a length into at most eight.
function tick(span,    step, turn) {
    for (step = 0.001; step * 8 < span; step *= turn++ % 3 == 1 ? 2.5 : 2) {
    }
    return step
}

function across(kelvin) {
    return 70 + 700 * (kelvin - left) / (right - left)
}
function down(bar) {
    return 530 - 490 * bar / highest
}
function label(x, y, anchor, text) {
    printf "<text x=\"%.1f\" y=\"%.1f\" text-anchor=\"%s\">%s</text>\n", x, y, anchor, text
}

function axes(    step, n) {
    print "<svg xmlns=\"http://www.w3.org/2000/svg\" viewBox=\"0 0 800 600\" font-family=\"sans-serif\" font-size=\"14\">"
    print "<rect width=\"800\" height=\"600\" fill=\"white\"/>"
    print "<path d=\"M70 40V530H770\" fill=\"none\" stroke=\"black\"/>"
    step = tick(right - left)
    for (n = int(left / step + 0.999999); n * step <= right; n++) {
        printf "<path d=\"M%.1f 530v6\" stroke=\"black\"/>", across(n * step)
        label(across(n * step), 553, "middle", n * step)
    }
    step = tick(highest)
    for (n = 0; n * step <= highest; n++) {
        printf "<path d=\"M64 %.1fh6\" stroke=\"black\"/>", down(n * step)
        label(60, down(n * step) + 5, "end", n * step)
    }
    label(770, 580, "end", "temperature, K")
    label(20, 25, "start", "pressure, bar")
    label(770, 25, "end", "certified brackets: <tspan fill=\"#080\">bubble</tspan>, <tspan fill=\"#c00\">dew</tspan>")
}

BEGIN {
    table = quoted(ARGV[1])
    program = quoted(ARGV[2])
    left = ARGV[3] + 0
    right = ARGV[4] + 0
    step = ARGV[5] + 0
    if (left >= right || step <= 0) {
        failed("FROM isn't below TO, or STEP isn't above 0")
    }
    for (n = 6; n < ARGC; n++) {
        words = words " " quoted(ARGV[n])
    }
    for (n = 0; left + n * step <= right + 0.0005; n++) {
        kelvin = sprintf("%.3f", left + n * step)
        for (k = 0; k < 21; k++) {
            low = int(10 ^ (4 + k / 6) + 0.5)
            high = int(10 ^ (4 + (k + 1) / 6) + 0.5)
            if (searched("dew-p", kelvin, low, high) == "no-edge" && kinds ~ /divided/ && kinds ~ /liquid/) {
                searched("bubble-p", kelvin, low, high)
            }
        }
    }
    if (open || refused || !bars) {
        print "envelope: " bars + 0 " brackets; " open + 0 " searches stayed open, " refused + 0 " were refused" | "cat >&2"
    }
    if (!bars) {
        exit 1
    }
    axes()
    for (n = 1; n <= bars; n++) {
        printf "<path d=\"M%.1f %.1fV%.1f\" %s><title>%s</title></path>\n", across(at[n]), down(bottom[n]) + 1, down(top[n]) - 1, style[n], title[n]
    }
    print "</svg>"
    exit 0
}
