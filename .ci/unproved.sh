#!/bin/sh
# Tries the program that `bin/sidekiq --unproved` builds: what it says of itself, the worked rows, the documents' commands, the exit statuses,
# drills, an input cut off, the server over real connections, the live view, the metrics, and a package of it. It is run by hand: the gate speaks of
# the proved program alone.

cd "$(dirname "$0")/.." || exit 1
program=out/unproved/sidekiq
failed=0

fail() {
    echo "unproved: $*"
    failed=1
}

bin/sidekiq --unproved no-command
[ $? -eq 2 ] || { echo 'unproved: it was not built'; exit 1; }
case $(bin/sidekiq --unproved soak 1 1 2>&1 >/dev/null) in
*'NOT PROVED'*) ;;
*) fail "it doesn't say that it isn't proved" ;;
esac

sh .ci/statuses.sh "$program" || failed=1
if command -v python3 >/dev/null; then
    python3 .ci/rows.py "$program" || failed=1
    python3 .ci/tour.py --program "$program" || failed=1
    python3 .ci/cuts.py "$program" || failed=1
    python3 .ci/drills.py "$program" || failed=1
    python3 .ci/server.py "$program" || failed=1
    python3 .ci/top.py "$program" || failed=1
    python3 .ci/metrics.py "$program" || failed=1
    python3 .ci/package.py --unproved || failed=1
fi
[ "$failed" -eq 0 ] && echo 'unproved: all as the proved program must do'
exit "$failed"
