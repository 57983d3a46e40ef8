# Lines: "cites CRATE DEP..", "took CRATE SECONDS" (elsewhere), "kept CRATE" (proved before, it seems), "done CRATE SECONDS" (rt has said so; 0: it was proved before). Variables: wanted;
# jobs, cores: how many crates of one level are proved side by side, and on how many cores; past: the seconds of this run when rt spoke last; since: the seconds from then on.
$1 == "cites" { name = $2; $1 = $2 = ""; cites[name] = $0 }
$1 == "took" { took[$2] = $3 }
$1 == "kept" { kept[$2] = 1 }
$1 == "done" { said[$2] = 1; last = $2; if ($3 == 0) kept[$2] = 1; else kept[$2] = 0 }

# as rt orders them: a crate's level is one more than the highest among those that it cites
function visit(name,    dep, n, i, own) {
    if (name in level) return
    level[name] = 0; own = 0
    n = split(cites[name], dep, " ")
    for (i = 1; i <= n; i++) if (dep[i] in cites) {
        visit(dep[i])
        if (level[dep[i]] + 1 > own) own = level[dep[i]] + 1
        if (!kept[dep[i]]) stale[name] = 1
    }
    if (stale[name] && !(name in said)) kept[name] = 0
    level[name] = own
    if (own > top) top = own
    order[++count] = name
}

# the seconds of a crate, by what it took elsewhere
function cost(name) {
    return kept[name] ? 0.2 : (name in took) ? took[name] : 20
}

# ends a handful: it takes as long as its longest crate, and at least its sum over the cores
function flush() {
    seconds = sum / cores > longest ? sum / cores : longest
    if (open) left += seconds; else done += seconds
    sum = longest = open = running = 0
}

END {
    n = split(wanted, first, " ")
    for (i = 1; i <= n; i++) visit(first[i])
    for (l = 0; l <= top; l++) {
        for (i = 1; i <= count; i++) if (level[order[i]] == l) {
            if (running >= jobs) flush()
            running++
            t = cost(order[i])
            sum += t
            if (t > longest) longest = t
            if (order[i] in said || kept[order[i]]) proved++; else open = 1
        }
        flush()
    }
    if (done >= 20 && past > 0) left *= past / done
    left -= since
    time = left >= 90 ? sprintf("about %d min left", (left + 30) / 60) : left >= 10 ? sprintf("about %d s left", int((left + 9) / 10) * 10) : left >= -15 ? "a few seconds left" : "later than expected"
    printf "%d of %d crates proved%s, %s\n", proved, count, last == "" ? "" : ", the last " last, time
}
