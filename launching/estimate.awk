# estimate.awk: how far a proof is that has taken `elapsed` seconds on `lanes` processors, in words. It reads, told apart by `part`:
# `weights`, the file of that name; `times`, when crates began and ended, as earlier calls saw it; `log`, what rt wrote; `made`, the
# folders of results that were made since the run began; `crates`, the crates, each behind those that it uses. What this call sees of
# times is added to the file `times`.
#
# Until the first crate ends the file of weights is taken for true, and the line says so. From then on it is scaled by what the crates that
# ended took. What is to come takes as long as all crates on all processors, or as the longest chain of crates, of which each waits for
# the one before it and has two processors for itself.
part == "weights" { if ($1 == "proof") weights[$2] = $3; next }
part == "times" { if ($1 == "begin") begun[$2] = $3; else ended[$2] = $3; next }
part == "log" && /^== [a-z0-9_]+$/ { done[$2] = 1 }
part == "log" && /^rt: [a-z0-9_]+ is kept: / { done[$2] = kept[$2] = 1 }
part == "log" { next }
part == "made" { sub(/\/out(\/rlib)?$/, ""); sub(/.*\//, ""); made[$0] = 1; next }
{
    split($0, halves, ":"); split(halves[1], words, " "); order[++all] = words[1]; below[words[1]] = halves[2]
}
END {
    for (at = 1; at <= all; at++) {
        crate = order[at]
        if (!(crate in weights)) weights[crate] = 120
        if (crate in made && !(crate in begun) && !(crate in kept)) {
            begun[crate] = elapsed
            print "begin", crate, elapsed >>times
        }
        if (crate in done) ready++
        if (crate in kept || !(crate in done)) continue
        if (!(crate in ended)) {
            ended[crate] = elapsed
            print "end", crate, elapsed >>times
        }
        took += ended[crate] - begun[crate] + 0.5
        weighed += weights[crate]
    }
    pace = weighed ? took / weighed : 1
    for (at = 1; at <= all; at++) {
        crate = order[at]
        chain = 0
        count = split(below[crate], used, " ")
        for (it = 1; it <= count; it++) if (chains[used[it]] > chain) chain = chains[used[it]]
        if (!(crate in done)) {
            work = weights[crate] * pace
            if (crate in begun) {
                now = now (now ? ", " : ", now ") crate
                work = work - (elapsed - begun[crate]) > work / 10 ? work - (elapsed - begun[crate]) : work / 10
            }
            left += work
            chain += work / (lanes < 2 ? 1 : 2)
        }
        chains[crate] = chain
        if (chain > longest) longest = chain
    }
    minutes = int((left / lanes > longest ? left / lanes : longest) / 60 + 0.5)
    if (left && !minutes) minutes = 1
    more = minutes (minutes == 1 ? " minute" : " minutes")
    if (elapsed == 0) printf "%d crates, some %s on %d processors by the table; the first crate that ends says it better", all, more, lanes
    else if (weighed) printf "%d of %d crates proved%s; %d minutes, about %d more", ready, all, now, elapsed / 60, minutes
    else printf "%d of %d crates proved%s; %d minutes, some %d more by the table", ready, all, now, elapsed / 60, minutes
}
