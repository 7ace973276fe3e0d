# The gate's lines, each behind the seconds since its begin (`12 rt: laws proved`, `95 rt: must-fail rules/full_at_65.edit: refused, ...`), as a table by crate.
function know(crate) {
	if (crate in proved)
		return
	order[++crates] = crate
	proved[crate] = "kept"
	edits[crate] = 0
}

match($0, /^[0-9]+ rt: [a-z_]+ (proved$|is kept)/) {
	know($3)
	if ($4 == "proved")
		proved[$3] = $1
}

match($0, /rt: must-fail [a-z_]+\//) {
	crate = substr($0, RSTART + length("rt: must-fail "), RLENGTH - length("rt: must-fail ") - 1)
	know(crate)
	edits[crate]++
}

END {
	if (!crates)
		print "(the log names no crate: the gate did not get that far)"
	else
		printf "%-12s %14s %16s\n", "crate", "proved after s", "must-fail edits"
	for (i = 1; i <= crates; i++)
		printf "%-12s %14s %16d\n", order[i], proved[order[i]], edits[order[i]]
}
