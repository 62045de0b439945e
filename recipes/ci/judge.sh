#!/bin/sh
# Judges what the clients of a test recorded, as a step of continuous integration.
#
#     judge.sh CLIENTS [OPTION ..]
#     judge.sh HISTORY [OPTION ..]
#
# A history, such as Jepsen's store/latest/history.edn, is judged by report.py, or by tcc-report where this file is without it, with
# the options. The page causal.html lies beside the history then. The status is 0, 1, 2 and others as below.
#
# CLIENTS is a folder with a file for each client of one history. It joins CLIENTS/*.csv, and asks `tcc explain` about them, with the
# options: --large, say, or --level atomic. What TCC names is the program, by default `tcc`. CLIENTS/judged keeps the records, the answer,
# and what standard error had.
#
# The status is that of `tcc`, and no pipe hides it: 0 the store kept its promise; 1 it broke it; 2 reads can't be traced to a
# write, so nothing was judged; others, nothing was judged: 3 too where there are no records, 127 where there is no program.
#
# example:
#   judge.sh clients --large

set -u

case ${1:---help} in
-h | --help)
    sed -n '2,/^$/s/^# \{0,1\}//p' "$0"
    exit 0
    ;;
esac
folder=$1
shift

if [ -f "$folder" ]; then
    page=$(dirname "$folder")/causal.html
    script=$(dirname "$0")/../report.py
    if [ -f "$script" ]; then
        python3 "$script" "$folder" -o "$page" "$@"
    else
        tcc-report "$folder" -o "$page" "$@"
    fi
    exit
fi

judged=$folder/judged
mkdir -p "$judged" || exit 6

if ! cat "$folder"/*.csv > "$judged/records"; then
    echo "judge.sh: nothing was judged: no records in $folder" >&2
    exit 3
fi

"${TCC:-tcc}" explain --require 1 "$@" "$judged/records" > "$judged/answer" 2> "$judged/errors"
status=$?
cat "$judged/errors" >&2

case $status in
0)
    head -n 1 "$judged/answer"
    ;;
1)
    cat "$judged/answer"
    echo "judge.sh: the store broke its promise; the records are in $judged/records" >&2
    ;;
2)
    cat "$judged/answer"
    echo "judge.sh: nothing was judged: reads can't be traced to a write" >&2
    ;;
*)
    tail -n 1 "$judged/answer"
    echo "judge.sh: nothing was judged: status $status" >&2
    ;;
esac
exit "$status"
