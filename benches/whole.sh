#!/usr/bin/env bash
# Measures the whole benchmark in one run beside the yardstick, a plain Rust program that answers the same with nothing
# proved: reports of large texts, certificates and their check, the searches of questions 13 to 15, their growth along the
# futile cycle of 1 to 12 sites, persistence by siphons, each with the most memory of both. It ends where the two programs do not answer the same.
# Not part of the checks: times depend on the machine, and it takes an hour or more, most of it in valgrind.
#
#     benches/whole.sh [RUNS]
#     CRNT_PROGRAM=FILE benches/whole.sh    measures this program, and builds none
. "$(dirname "$0")/programs.sh"
export CRNT_PROGRAM=$program CRNT_YARDSTICK=${yardstick:?needs rustc}

echo "## Reports"
COUNT=1 benches/report.sh "${1:-5}"
printf '\n## Certificates\n'
benches/certificates.sh "${1:-5}"
printf '\n## Searches\n'
benches/search.sh "${1:-5}"
printf '\n## Persistence\n'
benches/prove.sh persist "${1:-5}"
printf '\nin all %d seconds\n' "$SECONDS"
