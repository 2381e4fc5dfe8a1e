"""Calls by a shell with each kind of standard input, output and error. HMREPLAY is the program or the launcher, TRACE a
trace with a finding, JOURNAL its journal."""

CALLS = r"""
$HMREPLAY run < $TRACE
$HMREPLAY run --config light --seed 3 < $TRACE
$HMREPLAY journal < $TRACE
$HMREPLAY stats < $TRACE
$HMREPLAY watch < $TRACE
$HMREPLAY check < $JOURNAL
$HMREPLAY check < $TRACE
$HMREPLAY run < $JOURNAL
$HMREPLAY stress 5
cat $TRACE | $HMREPLAY run
cat $JOURNAL | $HMREPLAY check
(head -c 10; $HMREPLAY run) < $TRACE
($HMREPLAY run; cat) < $TRACE
$HMREPLAY run < /dev/null
$HMREPLAY run < /dev/zero
$HMREPLAY run < /
$HMREPLAY check < /
$HMREPLAY run <&-
$HMREPLAY run > /dev/full < $TRACE
$HMREPLAY run --seed x > /dev/full
$HMREPLAY run >&- < $TRACE
$HMREPLAY stress 1 >&-
$HMREPLAY journal < $TRACE | head -c 9; exit ${PIPESTATUS[0]}
$HMREPLAY stress 1 | true; exit ${PIPESTATUS[0]}
$HMREPLAY run 2>&- < $TRACE
$HMREPLAY run 2>&- < $JOURNAL
$HMREPLAY run --seed 2>&-
$HMREPLAY run 2> /dev/full < $TRACE
$HMREPLAY run 2> /dev/full < $JOURNAL
$HMREPLAY run <&- >&- 2>&-
$HMREPLAY run $'\xff'
""".strip().split("\n")
