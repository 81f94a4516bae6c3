#!/bin/sh
# ./compaan of an example's files: tools/examples/run.sh fir N=8 T=3, or with another command first, tools/examples/run.sh net fir N=8 T=3.
here=$(cd "$(dirname "$0")/../../examples" && pwd)
[ $# -ge 1 ] || exec "$here/../compaan" help
command=run
[ -f "$here/$1.loop" ] || { command=$1; shift; }
example=$here/${1-}
[ $# = 0 ] || shift
[ ! -f "$example.data" ] || set -- "$@" --data "$example.data"
exec "$here/../compaan" "$command" "$example.loop" "$@"
