# What examples/engineering prints. First comes the table, then a report on standard input. `shape` is report, row or head.
# Outside of what is proved: floating point.

function unquoted(field) {
    gsub(/^"|"$|\r$/, "", field)
    return field
}

function failed(text) {
    print "engineering: " text | "cat >&2"
    bad = 1
    exit 1
}

# The least multiple of 1/scale that isn't below the value, and the greatest that isn't above it.
function above(value, scale,    n) {
    n = int(value * scale)
    return (n < value * scale ? n + 1 : n) / scale
}
function below(value, scale) {
    return -above(-value, scale)
}

# Right-aligned numbers of all phases behind a label.
function line(label, form, values,    k) {
    printf "%-28s", label
    for (k = 1; k <= phases; k++) {
        if (values[k] == "") {
            printf " %14s", "-"
        } else {
            printf " %14s", sprintf(form, values[k])
        }
    }
    printf "\n"
}

BEGIN {
    gas = 8.31446261815324
    bit = log(2)
    one = 1099511627776
    if (shape == "head") {
        printf "%-44s %-11s %8s %11s %6s %8s  %s\n", "state", "answer", "units", "gap J/mol", "phases", "vapour", "Z"
        bad = 1
        exit 0
    }
}

# The table: what comes before the report is given.
!given {
    split($0, field, ",")
    if (unquoted(field[1]) == "comp") {
        covolume[unquoted(field[2])] = 0.0778 * gas * unquoted(field[3]) / unquoted(field[4])
    }
    next
}

# The report.
$1 == "closed" || $1 == "open" || $1 == "refused" {
    answer = $1 == "open" ? $1 " " $2 : $1 == "refused" ? $0 : $1
    if ($1 != "refused") {
        split($NF, field, "=")
        units = field[2]
    }
}
/^T=/ {
    split($1, field, "=")
    temperature = field[2]
    split($2, field, "=")
    pressure = field[2]
}
/^energy=/ { energy = substr($0, 8) / one }
/^gap=/ { gap = substr($0, 5) / one }
/^gap-joules-per-mole=/ { joules = substr($0, 21) }
$1 == "phase" {
    phases++
    kind[phases] = $3
    split($4, field, "=")
    packing[phases] = field[2] / one
    split($5, field, "=")
    share[phases] = field[2]
    components = 0
}
$1 == "part" {
    components++
    name[components] = $2
    part[phases, components] = $3
    sum[phases] += $3
    if (!($2 in covolume)) {
        failed($2 " has no record in the table")
    }
}
$1 == "plane" {
    for (i = 2; i <= NF; i++) {
        potential[i - 1] = $i / one * bit - 1
    }
}
$1 == "t" { live[$2] = ++lives }

END {
    if (bad) {
        exit (shape != "head")
    }
    if (answer ~ /^refused/) {
        if (shape == "row") {
            printf "%-44s %s\n", words, answer
        } else {
            print answer
        }
        exit 0
    }
    if (!phases || share[1] == "") {
        failed("no report of a flash")
    }
    vapour = 0
    for (k = 1; k <= phases; k++) {
        b = 0
        for (i = 1; i <= components; i++) {
            x[k, i] = part[k, i] / sum[k]
            b += x[k, i] * covolume[name[i]]
        }
        volume[k] = b / packing[k]
        factor[k] = pressure * volume[k] / (gas * temperature)
        liters[k] = 1000 * volume[k]
        if (kind[k] == "vapour") {
            vapour += share[k]
        }
    }
    if (shape == "row") {
        printf "%-44s %-11s %8d %11s %6d %8.6f ", words, answer, units, joules, phases, vapour
        for (k = 1; k <= phases; k++) {
            printf " %s %.4f", kind[k], factor[k]
        }
        printf "\n"
        exit 0
    }
    heat = gas * temperature
    printf "%s, %d units, at %s K and %.5f bar\n", answer, units, temperature, pressure / 100000
    printf "Gibbs energy from the pure ideal gases at the same temperature and pressure, of a mole of feed:\n"
    printf "  at most  %.3f J/mol\n", above((energy * bit - 1) * heat, 1000)
    printf "  at least %.3f J/mol (gap %s)\n", below(((energy - gap) * bit - 1) * heat, 1000), joules
    if (lives == 1) {
        printf "ln of the fugacity coefficient: at most %.6f, at least %.6f\n", above(energy * bit - 1, 1000000), below((energy - gap) * bit - 1, 1000000)
    }
    printf "near, without bounds of their own:\n"
    line("phase", "%s", kind)
    line("share of the moles", "%s", share)
    line("molar volume, L/mol", "%.5f", liters)
    line("Z", "%.5f", factor)
    for (i = 1; i <= components; i++) {
        for (k = 1; k <= phases; k++) {
            column[k] = x[k, i]
        }
        line("x " name[i], "%.6f", column)
    }
    # An open answer's plane says nothing of the phases.
    for (i = 1; i <= components && lives > 1 && answer == "closed"; i++) {
        for (k = 1; k <= phases; k++) {
            column[k] = (name[i] in live) && x[k, i] > 0 ? potential[live[name[i]]] - log(x[k, i]) : ""
        }
        line("ln phi " name[i], "%.4f", column)
    }
    if (phases == 2 && kind[1] != kind[2]) {
        gaseous = kind[1] == "vapour" ? 1 : 2
        for (i = 1; i <= components; i++) {
            if (x[3 - gaseous, i] > 0) {
                printf "%-28s %14.5g\n", "K " name[i], x[gaseous, i] / x[3 - gaseous, i]
            }
        }
    }
}
