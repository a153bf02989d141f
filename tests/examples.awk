# The examples in the documentation of a file of Rust, as a page that rustdoc runs: each under a heading, which has the file's name
# and that of the function below the example. Those in which the pattern `left` is found are marked to be left out.
#
#   awk -v left=PATTERN -f examples.awk FILE.rs > PAGE

BEGIN { fence = "```" }

/^ *\/\/\// {
    line = $0
    sub(/^ *\/\/\/ ?/, "", line)
    if (index(line, fence) == 1) {
        # what is no Rust says so behind the fence that opens it
        if (!inside) rust = line == fence
        else if (rust) { examples[++count] = text; text = "" }
        inside = !inside
    } else if (inside && rust) text = text line "\n"
    next
}

# attributes stand between the documentation and what it is about
/^ *#\[/ { next }

count {
    name = match($0, /fn [a-z_]+/) ? substr($0, RSTART + 3, RLENGTH - 3) : "something"
    file = FILENAME
    sub(/.*\//, "", file)
    for (i = 1; i <= count; i++)
        printf "# %s %s\n\n%s\n%s%s\n\n", file, name, fence (examples[i] ~ left ? "ignore" : ""), examples[i], fence
    count = 0
}
