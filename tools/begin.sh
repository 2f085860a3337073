# Read by the tools that are shell scripts, before they do anything: `-h` prints what the tool is, its first comment; a
# tool is run in the repository's root; and `words LEAST MOST "$@"` ends it with its usage line and 2 unless it was given so
# many words.
case ${1:-} in -h | --help) sed -n '2,/^[^#]/s/^# \{0,1\}//p' "$0"; exit ;; esac
[ -e crates.txt ] || { echo "$0: run this in the repository's root" >&2; exit 2; }
words() {
    least=$1 most=$2
    shift 2
    [ $# -ge "$least" ] && [ $# -le "$most" ] && return
    sed -n '2s/^# \([^:]*\):.*/usage: \1/p' "$0" >&2
    exit 2
}
