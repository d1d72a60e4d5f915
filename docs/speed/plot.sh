#!/bin/sh
# Writes docs/speed/workers.svg from docs/speed/workers: the time that a step takes on 1, 2 and 4 workers, as a multiple of that on one.
set -eu
cd "$(dirname "$0")"
awk '
function x(workers) { return 60 + 130 * log(workers) / log(2) }
function y(time) { return 130 - 45 * log(time) / log(2) }
BEGIN {
    split("#1f6feb #2da44e #bf8700 #cf222e", colour, " ")
    print "<svg xmlns=\"http://www.w3.org/2000/svg\" viewBox=\"0 0 620 280\" width=\"620\" height=\"280\" font-family=\"sans-serif\" font-size=\"13\">"
    print "<rect width=\"620\" height=\"280\" fill=\"white\"/>"
    for (i = -2; i <= 2; i++) {
        printf "<path d=\"M60 %g H320\" stroke=\"#d0d7de\"/>\n", y(2 ^ i)
        printf "<text x=\"50\" y=\"%g\" text-anchor=\"end\">%s</text>\n", y(2 ^ i) + 4, i < 0 ? "1/" 2 ^ -i : 2 ^ i
    }
    for (i = 0; i <= 2; i++) printf "<text x=\"%g\" y=\"248\" text-anchor=\"middle\">%d</text>\n", x(2 ^ i), 2 ^ i
    print "<text x=\"190\" y=\"268\" text-anchor=\"middle\">workers</text>"
    print "<text x=\"12\" y=\"22\">time of a step; 1 is the time on one worker</text>"
}
/^#/ { next }
{
    split($0, part, ": ")
    split(part[2], time, " ")
    count++
    last = y(time[3] / time[1])
    printf "<path d=\"M%g %g L%g %g L%g %g\" fill=\"none\" stroke=\"%s\" stroke-width=\"2\"/>\n", \
        x(1), y(1), x(2), y(time[2] / time[1]), x(4), last, colour[count]
    place[count] = last + 4
    name[count] = part[1]
}
# The names stand beside the ends of their lines, the lowest line first, and at least 15 apart.
END {
    above = 280
    for (i = 1; i <= count; i++) {
        lowest = 0
        for (j = 1; j <= count; j++) if (!(j in done) && (!lowest || place[j] > place[lowest])) lowest = j
        done[lowest] = 1
        above = place[lowest] < above - 15 ? place[lowest] : above - 15
        printf "<text x=\"330\" y=\"%g\" fill=\"%s\">%s</text>\n", above, colour[lowest], name[lowest]
    }
    print "</svg>"
}' workers >workers.svg
