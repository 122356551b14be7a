# Grows samples/paper.sp3 (25 lines, one satellite, one epoch): a file in its canonical form by other numbers, written from the paper. Settings, each
# of which may be left out: n, epochs, interval (s), mode, comments, date (YYYY-MM-DD), mjd, second, notes. Epochs stay within the month of the start.

# the identifier of satellite i, from 1 on: G01 to G99, R01 to R99, E01 and so on; eleven letters for 999
function name(i) {
    return n == "" ? "G07" : sprintf("%s%02d", substr("GRECJISLAMZ", int((i - 1) / 99) + 1, 1), (i - 1) % 99 + 1)
}

# the slots of line l, from 0 on, 17 to a line: identifiers, or `  0` for accuracies and after the last satellite
function slots(l, accuracies, text, i) {
    for (i = 17 * l + 1; i <= 17 * l + 17; i++)
        text = text (accuracies || i > satellites ? "  0" : name(i))
    return text
}

# all `+ ` lines, or all `++` lines
function slot_lines(accuracies, l) {
    for (l = 0; l < lines; l++)
        printf "%s%s   %s\n", accuracies ? "++" : "+ ", accuracies || l ? "    " : sprintf("%4d", satellites), slots(l, accuracies)
}

# columns 4 to 31 of the instant so many seconds after the midnight of the start
function moment(t, day) {
    day = int(t / 86400)
    t -= day * 86400
    return sprintf("%4d %2d %2d %2d %2d %11.8f", part[1], part[2], part[3] + day, int(t / 3600), int(t / 60) % 60, t - int(t / 60) * 60)
}

# the epochs with their rows, after the P line of the paper
function epoch_lines(row, k, i) {
    for (k = 0; k < epochs; k++) {
        printf "*  %s\n", moment(second + k * interval)
        for (i = 1; i <= satellites; i++) {
            print "P" name(i) row
            if (notes)
                print "EP    55   55   55     222  1234567 -1234567  5999999      -30       21 -1230000"
            if (mode == "V")
                print "V" name(i) row
            if (mode == "V" && notes)
                print "EV    22   22   22     111  1234567  1234567  1234567  1234567  1234567  1234567"
        }
    }
}

BEGIN {
    satellites = n == "" ? 1 : n
    lines = satellites > 85 ? int((satellites + 16) / 17) : 5
    if (epochs == "") epochs = 1
    if (interval == "") interval = 900
    if (mode == "") mode = "P"
    if (comments == "") comments = 4
    if (date == "") date = "2013-04-03"
    if (mjd == "") mjd = 56385
    second += 0
    split(date, part, "-")
}
NR == 1 { printf "#d%s%s %7d%s\n", mode, moment(second), epochs, substr($0, 40) }
# the fraction of day in 10^-13: 125 S / 108 rounded to the nearest, S being the second in 10^-8
NR == 2 {
    fraction = int((125e8 * second + 54) / 108)
    week = int((mjd - 44244) / 7)
    printf "## %4d %15.8f %14.8f %5d 0.%013d\n", week, (mjd - 44244 - 7 * week) * 86400 + second, interval, mjd, fraction
}
NR == 3 { slot_lines(0) }
NR == 8 { slot_lines(1) }
NR == 13 { print (satellites > 99 ? "%c M " substr($0, 6) : $0) }
NR >= 14 && NR <= 22 { print }
NR == 22 { for (i = 5; i <= comments; i++) print "/* " i }
NR == 24 { epoch_lines(substr($0, 5)) }
NR == 25 { print }
