# The results of bench/run as tables: a line is count or time, who, part, stream, format and a number. Who is ours, or a
# compiler of plain C with its optimisation. Of ours the least counts. The C of a cell is that of the fewest instructions,
# or, where none are counted, of the least time; the cell names it. A part may lack its counts or its times: it has no
# rows of them, and empty columns in the first table.

# A row of a part: of a stream and a kind, format by format, what ours costs and its ratio to the C; of instructions also
# whose C it is, in two letters.
function row(label, kind, part, stream,   j, key, text) {
    text = "| " label " | " (kind == "count" ? "instr." : "ns") " |"
    for (j = 1; j <= columns[part]; j++) {
        key = part FS stream FS column[part, j]
        text = text (key in known ? sprintf(" %.1f, %.2f%s |", ours[kind, key], ours[kind, key] / c[kind, key, by[key]], kind == "count" || !counted ? " " brief(by[key]) : "") : " |")
    }
    return text
}

# A compiler's first letter and its optimisation.
function brief(who) { return substr(who, 1, 1) substr(who, length(who)) }

# Of a part and a kind: the geometric mean of the ratios, the least and the greatest.
function range(kind, part,   i, r, least, most, a, b) {
    if (!((kind, part) in has)) return " | |"
    least = 1e9
    for (i = 1; i <= rows; i++) {
        if (part_of[i] != part) continue
        r = ours[kind, key_of[i]] / c[kind, key_of[i], by[key_of[i]]]
        if (r < least) least = r
        if (r > most) most = r
        a += log(r); b++
    }
    return sprintf(" %.2f | %.2f to %.2f |", exp(a / b), least, most)
}

{
    key = $3 FS $4 FS $5
    if (!(key in known)) {
        known[key] = 1; rows++; key_of[rows] = key; part_of[rows] = $3; stream_of[rows] = $4
        if (!(($3, $5) in placed)) { placed[$3, $5] = 1; column[$3, ++columns[$3]] = $5 }
    }
    if ($2 == "ours") {
        if (!(($1, key) in ours) || $6 < ours[$1, key]) ours[$1, key] = $6
    } else {
        c[$1, key, $2] = $6
        if ($1 == (counted ? "count" : "time") && (!(key in by) || $6 < c[$1, key, by[key]])) by[key] = $2
    }
    has[$1, $3] = 1
}

END {
    if (rows == 0) exit 1
    parts = split("read step encode box list mlist told-step told-read bridge readback rewrite puck-step puck-read yard-step yard pick salvage", part, " ")
    titles = "The long read, a word|The step, a word|The encoder, a report|The box, an event|The lister, a line|The program mlist, a line"
    titles = titles "|The told reader's step, a word|The told reader's long read, a word|The bridge, a word|Reading a listing back, a line|Rewriting a listing, a line"
    titles = titles "|The puck reader's step, a word|The puck reader's long read, a word|The yard check's step, a word|The yard check of a log, a word"
    split(titles "|Salvage of a log, a word|Salvage of a recording, a line", title, "|")
    print "Measured on " machine "."
    print ""
    print "Plain C by " compilers "."
    print ""
    print "Ours over the leanest C, over all streams and formats of a part: the geometric mean, and the least and the greatest."
    print ""
    print "| Part |" (counted ? " instructions: ours / C | from, to |" : "") " time: ours / C | from, to |"
    print "|---|" (counted ? "---|---|" : "") "---|---|"
    for (p = 1; p <= parts; p++) {
        if (!(("count", part[p]) in has) && !(("time", part[p]) in has)) continue
        print "| " title[p] " |" (counted ? range("count", part[p]) : "") range("time", part[p])
    }
    print ""
    print "Below, format by format: what ours costs, and its ratio to the leanest C" (counted ? ", which is named: k, g and c are kit, gcc and clang, 2 and 3 are -O2 and -O3" : "") "."
    for (p = 1; p <= parts; p++) {
        counts = ("count", part[p]) in has
        times = ("time", part[p]) in has
        if (!counts && !times) continue
        print ""
        print "### " title[p]
        print ""
        text = "| Stream | |"
        bar = "|---|---|"
        for (j = 1; j <= columns[part[p]]; j++) { text = text " " column[part[p], j] " |"; bar = bar "---|" }
        print text
        print bar
        for (i = 1; i <= rows; i++) {
            if (part_of[i] != part[p] || (part[p], stream_of[i]) in written) continue
            written[part[p], stream_of[i]] = 1
            if (counts) print row(stream_of[i], "count", part[p], stream_of[i])
            if (times) print row(counts ? "" : stream_of[i], "time", part[p], stream_of[i])
        }
    }
}
