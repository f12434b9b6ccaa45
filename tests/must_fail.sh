#!/usr/bin/env bash
# A must-fail edit is worth something only where a fact no longer holds. What rt ci said of each is read from its output, since it keeps no
# more. It passes where an edit could not be applied, compiled or read (a bad edit), and where the only errors are that proof files name what
# the edit took away: that shows that the edit changed the code's shape, so that its proof no longer fits whatever the code does.
# (rt tells the first error that is not of that kind, which may only follow from those: that something they stand in was not checked.) A step's
# name has the operator and the number of its condition, as then-width-eq4, so an edit keeps these, and changes what they are asked of.
#
#   tests/must_fail.sh LOG    the output of rt ci, or of rt must-fail
set -eu
log=$(realpath -e "$1")
cd "$(dirname "$0")/.."
told=$(grep '^rt: must-fail ' "$log" || true)

# the edits that are told as refused, each on a line of its own, are those that there are
refused=$(sed -n 's|^rt: must-fail \([^/]*\)/\([^ ]*\): refused, as it must be.*|crates/\1/must-fail/\2|p' <<<"$told" | sort)
if ! diff <(ls crates/*/must-fail/*.edit | sort) <(echo "$refused"); then
    echo "must-fail: edits that are not told as refused (<), or are told as refused and not there (>)"
    exit 1
fi
bad=$(sed -n 's/^rt: ok; .*must-fail edits: [^;]*, \([1-9][0-9]*\) bad;.*/\1/p' "$log")
if [ -n "$bad" ]; then
    echo "must-fail: bad edits: $bad"
    exit 1
fi
unfit=$(grep -e '(only because a proof file names what the edit took away' -e 'has no `' -e 'has no field' -e 'is not in scope' \
    -e 'not checked' <<<"$told" || true)
if [ -n "$unfit" ]; then
    echo "must-fail edits that are not refused for a fact:"
    echo "$unfit"
    exit 1
fi
grep '(only by a limit of the prover' <<<"$told" || true
echo "must-fail: $(wc -l <<<"$refused") edits, each refused for a fact that no longer holds"
