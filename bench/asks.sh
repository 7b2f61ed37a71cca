#!/bin/sh
# Times a session with many asks over a chain of axioms, and shows the most memory that it took.
# Words: how many asks (100000 where there is none), and how many axioms (2000).
asks=${1:-100000}
axioms=${2:-2000}
drago=$(dirname "$(readlink -f "$0")")/../drago

requests=$(mktemp) && replies=$(mktemp) && figures=$(mktemp) || exit 1
trap 'rm -f "$requests" "$replies" "$figures"' EXIT

# The axioms are N0 under N1, N1 under N2, and so on, so that a name is under another exactly where its number is not
# above the other's. Every second ask goes from one end of the chain to the other.
awk -v asks="$asks" -v axioms="$axioms" 'BEGIN {
    print "{\"op\":\"peers\",\"names\":[\"a\"]}"
    printf "{\"op\":\"put\",\"peer\":\"a\",\"axioms\":["
    for (n = 0; n < axioms; n++) printf "%s\"(implies N%d N%d)\"", (n ? "," : ""), n, n + 1
    print "]}"
    for (n = 0; n < asks; n++) {
        left = n % 2 ? (n * 7) % (axioms + 1) : 0
        right = n % 2 ? (n * 11) % (axioms + 1) : axioms
        printf "{\"op\":\"ask\",\"peer\":\"a\",\"left\":\"N%d\",\"right\":\"N%d\"}\n", left, right
        if (left <= right) yes++
    }
    printf "%d asks over a chain of %d axioms, of which %d are to get yes\n", asks, axioms, yes > "/dev/stderr"
}' >"$requests"

# The first call builds what has to be built, so that the second is the program's time alone.
"$drago" alone </dev/null || exit
/usr/bin/time -f '%e seconds, %M KB of memory at most' -o "$figures" "$drago" alone <"$requests" >"$replies"
status=$?
echo "status $status, $(wc -l <"$replies") replies, $(grep -c '"verdict":"yes"' "$replies") times yes"
cat "$figures"
exit "$status"
