# junit.awk LOG IMAGES: from the log of GNU parallel and the list of images, each a line, a file for JUnit; or with
# kinds=1 how many images there were of each kind, and the status 0 only if all passed. work: the folder in which parallel
# left what the runs wrote, in folders by number. FARM_SUITE, in the environment: the name of the suite.

# What a status of `rvmove run --verdict --stop-at-fault` says.
function kind_of(status) {
    if (status == 0) return "passed"
    if (status == 3) return "failed"
    if (status == 4) return "steps spent"
    if (status == 5) return "fault"
    if (status == 1) return "refused"
    return "no verdict"
}

# The last line that a run wrote to standard error, which says how it ended.
function last_line(number,    file, line, last) {
    file = work "/" number "/stderr"
    while ((getline line < file) > 0) last = line
    close(file)
    return last
}

# A text inside the quotes of an attribute. XML has no place for most control characters.
function escaped(text) {
    gsub(/[\001-\037\177]/, "?", text)
    gsub(/&/, "\\&amp;", text)
    gsub(/</, "\\&lt;", text)
    gsub(/>/, "\\&gt;", text)
    gsub(/"/, "\\&quot;", text)
    return text
}

# Prints the case of an image.
function print_case(image, number, kind,    line, tag) {
    printf "  <testcase classname=\"%s\" name=\"%s\" time=\"%.3f\"", escaped(ENVIRON["FARM_SUITE"]), escaped(image), seconds[number]
    if (kind == "passed") {
        print "/>"
        return
    }
    line = last_line(number)
    if (line == "") line = kind ", status " status[number]
    tag = kind == "no verdict" ? "error" : "failure"
    printf ">\n    <%s type=\"%s\" message=\"%s\"/>\n  </testcase>\n", tag, kind, escaped(line)
}

BEGIN { FS = "\t" }

# The log: its first line has the names of the columns. A run that a signal ended has no status of its own.
FILENAME == ARGV[1] {
    if (FNR > 1) {
        seconds[$1] = $4
        status[$1] = $8 == 0 ? $7 : "signal " $8
        all_seconds += $4
    }
    next
}

{
    images[FNR] = $0
    kind[FNR] = FNR in status ? kind_of(status[FNR] "") : "no verdict"
    count[kind[FNR]]++
    all = FNR
}

END {
    if (kinds) {
        for (name in count) printf "%d %s\n", count[name], name | "LC_ALL=C sort -k 2"
        close("LC_ALL=C sort -k 2")
        if (!all) print "no images"
        exit !(all > 0 && count["passed"] == all)
    }
    print "<?xml version=\"1.0\" encoding=\"UTF-8\"?>"
    printf "<testsuite name=\"%s\" tests=\"%d\" failures=\"%d\" errors=\"%d\" time=\"%.3f\">\n", escaped(ENVIRON["FARM_SUITE"]), all,
        count["failed"] + count["steps spent"] + count["fault"] + count["refused"], count["no verdict"], all_seconds
    for (number = 1; number <= all; number++) print_case(images[number], number, kind[number])
    print "</testsuite>"
}
