# What make and night share; they source it.

# WIDTH NUMBER..: each number in so many bytes, the lowest first.
put() {
    width=$1
    shift
    for number; do
        left=$width
        while [ "$left" -gt 0 ]; do
            printf "\\$(printf %03o $((number % 256)))"
            number=$((number / 256)) left=$((left - 1))
        done
    done
}
