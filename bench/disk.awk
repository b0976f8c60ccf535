# The tables of bench/disk. A line is a round, what was measured, and its figure: "3 write.1.mirror-real 412.5". Times are in microseconds.
{
    figure[$2, $1] = $3
    if ($1 > rounds) rounds = $1
}

# The median of list[1] to list[n], and in brackets the least and the greatest, by the form of `shown`; a dash where there is none.
function spread(list, n, kind,    i, j, t, middle) {
    if (n == 0) return "–"
    for (i = 2; i <= n; i++)
        for (j = i; j > 1 && list[j] < list[j - 1]; j--) {
            t = list[j]
            list[j] = list[j - 1]
            list[j - 1] = t
        }
    middle = n % 2 ? list[(n + 1) / 2] : (list[n / 2] + list[n / 2 + 1]) / 2
    if (shown(list[1], kind) == shown(list[n], kind)) return shown(middle, kind)
    return shown(middle, kind) " (" shown(list[1], kind) "–" shown(list[n], kind) ")"
}
function shown(x, kind) {
    if (kind == "share") return sprintf("%.0f %%", 100 * x)
    if (kind == "time") return x < 10000 ? sprintf("%.0f µs", x) : sprintf("%.0f ms", x / 1000)
    return sprintf(x < 10 ? "%.2f" : "%.1f", x)
}

# The figure itself, and that of `a` to that of `b`, over the rounds that have them.
function plain(a, kind,    r, n, list) {
    for (r = 1; r <= rounds; r++)
        if ((a, r) in figure) list[++n] = figure[a, r]
    return spread(list, n + 0, kind)
}
function ratio(a, b,    r, n, list) {
    for (r = 1; r <= rounds; r++)
        if ((a, r) in figure && (b, r) in figure) list[++n] = figure[a, r] / figure[b, r]
    return spread(list, n + 0, "")
}
# (a - b) as a share of `whole`; b is "" for nothing.
function share(a, b, whole,    r, n, list) {
    for (r = 1; r <= rounds; r++)
        if ((a, r) in figure && (whole, r) in figure) list[++n] = (figure[a, r] - (b == "" ? 0 : figure[b, r])) / figure[whole, r]
    return spread(list, n + 0, "share")
}

function ratios_of_requests(kind, depth, name, sync,    at, own, flushed) {
    at = kind "." depth "."
    flushed = kind == "write" && sync != "none"
    own = at "mirror-" sync
    printf "| %s | %s | %s | %s | %s | %s | %s | %s | %s |\n", kind, depth, name, ratio(own, at "memory"),
        flushed ? "–" : ratio(own, at "file-" sync), flushed ? ratio(own, at "file-" sync) : "–", ratio(own, at "flushed-" sync),
        ratio(own, at "uncoded-" sync), plain(own, "time")
}
function ratios_of_copies(way, name, sync,    own) {
    own = way ".mirror-" sync
    printf "| %s | %s | %s | %s | %s | %s | %s |\n", way, name, ratio(own, way ".memory"), ratio(own, way ".file-" sync),
        ratio(own, way ".flushed-" sync), ratio(own, way ".uncoded-" sync), plain(own, "time")
}
function syncs_of_writes(name, server,    sync, depth, line) {
    line = "| " name
    for (depth = 1; depth <= 8; depth += 7)
        for (sync = 1; sync <= 2; sync++) line = line " | " plain("syncs.write." depth "." server "-" (sync == 1 ? "real" : "slow"))
    print line " |"
}

END {
    of = rounds == 1 ? "one round" : "median of " rounds " rounds, with the least and the greatest"

    print "### Requests of 4 KiB at random places: the time of one, the mirror's to that of another server (" of ")\n"
    print "| request | in flight | sync | to memory | to file | to file, flushed by the client | to flushed file | to uncoded | mirror |"
    print "|---|---:|---|---:|---:|---:|---:|---:|---:|"
    for (depth = 1; depth <= 8; depth += 7) ratios_of_requests("read", depth, "–", "real")
    for (depth = 1; depth <= 8; depth += 7) ratios_of_requests("write", depth, "real", "real")
    for (depth = 1; depth <= 8; depth += 7) ratios_of_requests("write", depth, "1 ms", "slow")
    for (depth = 1; depth <= 8; depth += 7) ratios_of_requests("write", depth, "none", "none")

    print "\n### Copies of " mib " MiB: the mirror's time to that of another server (" of ")\n"
    print "| copy | sync | to memory | to file, flushed at the end | to flushed file | to uncoded | mirror |"
    print "|---|---|---:|---:|---:|---:|---:|"
    ratios_of_copies("in", "real", "real")
    ratios_of_copies("in", "1 ms", "slow")
    ratios_of_copies("out", "–", "real")

    print "\n### Where the mirror's time of a request goes, one in flight (" of ")\n"
    print "| share | how it is found | read | write, sync real | write, sync 1 ms |"
    print "|---|---|---:|---:|---:|"
    print "| the socket and the client | memory | " share("read.1.memory", "", "read.1.mirror-real") " | " \
        share("write.1.memory", "", "write.1.mirror-real") " | " share("write.1.memory", "", "write.1.mirror-slow") " |"
    print "| the three files in the kernel's memory, waiting for turns, copying | uncoded without sync, less memory | " \
        share("read.1.uncoded-real", "read.1.memory", "read.1.mirror-real") " | " \
        share("write.1.uncoded-none", "write.1.memory", "write.1.mirror-real") " | " \
        share("write.1.uncoded-none", "write.1.memory", "write.1.mirror-slow") " |"
    print "| the library's calls | mirror less uncoded, both without sync | " \
        share("read.1.mirror-real", "read.1.uncoded-real", "read.1.mirror-real") " | " \
        share("write.1.mirror-none", "write.1.uncoded-none", "write.1.mirror-real") " | " \
        share("write.1.mirror-none", "write.1.uncoded-none", "write.1.mirror-slow") " |"
    print "| the syncs | mirror less mirror without sync | – | " \
        share("write.1.mirror-real", "write.1.mirror-none", "write.1.mirror-real") " | " \
        share("write.1.mirror-slow", "write.1.mirror-none", "write.1.mirror-slow") " |"
    print "| for comparison: the library's calls alone | the same calls in memory, with no server | " \
        share("read.1.calls", "", "read.1.mirror-real") " | " share("write.1.calls", "", "write.1.mirror-real") " | " \
        share("write.1.calls", "", "write.1.mirror-slow") " |"

    print "\n### Syncs of a write of 4 KiB, counted (" of ")\n"
    print "| server | 1 in flight, sync real | 1 in flight, 1 ms | 8 in flight, real | 8 in flight, 1 ms |"
    print "|---|---:|---:|---:|---:|"
    syncs_of_writes("file, flushed by the client", "file")
    syncs_of_writes("flushed file", "flushed")
    syncs_of_writes("uncoded", "uncoded")
    syncs_of_writes("mirror", "mirror")
    print "\n" where
}
