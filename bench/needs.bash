# What the bench scripts in bash share: each says in one line what is missing or which words it takes, and ends.

# usage: need PROGRAM WHERE IT IS TO BE HAD
need() {
    name=$1
    shift
    command -v "$name" > /dev/null || { echo "$name is missing: $*" >&2; exit 1; }
}

need_rt() {
    need rt "the Rattle kit brings it; put its folder bin on the path"
}

# usage: refuse WORDS OF USE
refuse() {
    echo "usage: $*" >&2
    exit 2
}

# usage: need_room CRATE..: for copies of these, with what their checks keep
need_room() {
    wanted=$(cd "$top/crates" && du -cm "$@" | awk 'END { print 2 * $1 + 500 }')
    left=$(df -BM --output=avail "${TMPDIR:-/tmp}" | tail -n 1 | tr -dc 0-9)
    [ "$left" -ge "$wanted" ] || { echo "room is missing: $left MB are left in ${TMPDIR:-/tmp}, and $wanted MB are wanted" >&2; exit 1; }
}
