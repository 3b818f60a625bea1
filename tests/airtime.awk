# The sums of airtime, without its checks of the form: mawk -f tests/airtime.awk FILE. It is written after the sheet and document 02,
# not after the Rattle: tests/programs takes totals from it, and tests/airtime-speed times both on one file.
BEGIN {
    FS = "\t"
    split("7810 10420 15630 20830 31250 41670 62500 125000 250000 500000", hertz, " ")
}

# DE is on where a symbol lasts longer than 16 ms
{
    sf = $2
    chips = 2 ^ sf
    de = 1000 * chips > 16 * hertz[$3 + 1]
    group = 4 * (sf - 2 * de)
    bits = 8 * $6 - 4 * sf + 28 + 16 * $8 - 20 * $7
    groups = bits > 0 ? int((bits + group - 1) / group) : 0
    sum[$3] += (4 * $5 + 17 + 4 * (8 + groups * ($4 + 4))) * chips
}

# 250,000 x a sum may be above 2^53, so the whole hertz are divided out first
END {
    for (code = 0; code < 10; code++) {
        h = hertz[code + 1]
        whole = int(sum[code] / h)
        rest = sum[code] - whole * h
        printf "%.0f\n", 250000 * whole + int((250000 * rest + h - 1) / h)
    }
}
