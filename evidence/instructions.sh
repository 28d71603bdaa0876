#!/bin/sh
# Instructions of the proved library over those of the plain version, counted by valgrind, for the largest sites, and of
# two lesser ones; then of the questions (a ring, a lifting order, doubtful links, one-way links) over those of a survey
# of the same table, both proved. Each figure is the difference between a run of 1 + TIMES surveys and a run of 1, so
# that the start of the program is not in it.
set -eu
cd "$(dirname "$0")"
TIMES=${1:-3}
cargo build --quiet --release --features face --bin bench
bench=target/release/bench

# The instructions of one run: SIDE WORK SITE TIMES
count() {
    valgrind --tool=callgrind --callgrind-out-file=/dev/null "$bench" one "$@" 2>&1 |
        awk '/Collected/ { print $NF; found = 1 } END { exit !found }'
}

# The ratio of two counts.
ratio() { echo "$1 $2" | awk '{ printf "%.2f", $1 / $2 }'; }

# The instructions of one survey: SIDE WORK SITE
survey() {
    few=$(count "$1" "$2" "$3" 1)
    many=$(count "$1" "$2" "$3" $((TIMES + 1)))
    echo $(((many - few) / TIMES))
}

printf '%-8s %-6s %12s %12s %8s\n' site work proved plain ratio
for work in words bytes; do
    for site in path ring full star ladder; do
        proved=$(survey proved $work $site)
        plain=$(survey plain $work $site)
        printf '%-8s %-6s %12d %12d %8s\n' $site $work "$proved" "$plain" "$(ratio "$proved" "$plain")"
    done
done

# the random site with half and a quarter of the units
for site in full:128 full:64; do
    printf '%-8s %-6s %12d\n' $site bytes "$(survey proved bytes $site)"
done

# each question on two of the largest sites, and on the one on which it took longest in `bench worst`
printf '\n%-10s %-12s %12s %12s %8s\n' question site proved survey ratio
ask() {
    for site in full path "$2"; do
        asked=$(survey proved "$1" "$site")
        surveyed=$(survey proved survey "$site")
        printf '%-10s %-12s %12d %12d %8s\n' "$1" "$site" "$asked" "$surveyed" "$(ratio "$asked" "$surveyed")"
    done
}
ask ring drawn:1143
ask lifting drawn:1615
ask doubtful drawn:321
ask one-way drawn:1145
