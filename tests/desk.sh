#!/bin/sh
# desk.sh PROGRAM..: runs the programs at the desk, and says where they print something else than documents 01 and 02 have. Each of those named must be
# among those that are run.
set -u
cd "$(dirname "$0")/.."
seven=crates/planner_cases/data/seven
largest=crates/planner_cases/data/largest
high=crates/planner_cases/data/high-70
damaged=crates/taskfile_cases/data
joined=crates/join/data
programs=$*
input=/dev/null
failed=0
errors=$(mktemp)
made=$(mktemp)
parts=$(mktemp -d)
trap 'rm -rf "$errors" "$made" "$parts"' EXIT

# runs PROGRAM ARGUMENT..
runs() {
    echo "$1" >>"$parts/run"
    "target/bin/$@"
}

# prints FILE LINES PROGRAM ARGUMENT..: on the file, the program prints these lines, and nothing on standard error
prints() {
    file=$1 lines=$2
    shift 2
    printed=$(runs "$@" <"$file" 2>"$errors")
    [ "$printed" = "$lines" ] && [ ! -s "$errors" ] && return
    failed=1
    printf '%s < %s\nshould print\n%s\nand printed\n%s\n' "$*" "$file" "$lines" "$printed"
    cat "$errors"
}

# usage_with FILE PROGRAM ARGUMENT..: on the file, the program prints one line on standard error, and nothing else
usage_with() {
    file=$1
    shift
    printed=$(runs "$@" <"$file" 2>"$errors")
    [ -z "$printed" ] && [ "$(wc -l <"$errors")" -eq 1 ] && grep -q '^usage: ' "$errors" && return
    failed=1
    printf '%s < %s\nshould print a line of usage, and printed\n%s\n' "$*" "$file" "$printed"
    cat "$errors"
}

# usage PROGRAM ARGUMENT..: the same on File Seven
usage() {
    usage_with $seven-60 "$@"
}

# reports LINE PROGRAM ARGUMENT..: the program prints this line on standard error, and nothing else
reports() {
    line=$1
    shift
    printed=$(runs "$@" <"$input" 2>"$errors")
    [ -z "$printed" ] && [ "$(cat "$errors")" = "$line" ] && return
    failed=1
    printf '%s\nshould report\n%s\nand printed\n%s\n' "$*" "$line" "$printed"
    cat "$errors"
}

# makes FILE PROGRAM ARGUMENT..: the program writes something, which this file then has, and nothing on standard error
makes() {
    file=$1
    shift
    runs "$@" <"$input" >"$file" 2>"$errors"
    [ -s "$file" ] && [ ! -s "$errors" ] && return
    failed=1
    printf '%s\nshould write a file, and printed\n' "$*"
    cat "$errors"
}

# writes FILE PROGRAM ARGUMENT..: the program writes the bytes of this file, and nothing on standard error
writes() {
    right=$1
    shift
    makes "$made" "$@"
    cmp "$made" "$right" && return
    failed=1
    printf '%s\nshould write the bytes of %s\n' "$*" "$right"
}

# ends_at_id FILE: the file's header has no number behind the id: no range, Q2 0 and G 0
ends_at_id() {
    [ -z "$(od -An -v -tu1 -j20 -N484 "$1" | tr -d ' 0\n')" ] && return
    failed=1
    echo 'a file that is made has a number behind its id'
}

# prices FILE LINES CHARGES POINT..: of these points price prints these lines, and then one for each preempter, "I id X lines L"
prices() {
    file=$1 lines=$2 charges=$3
    shift 3
    prints "$file" "$lines
$(printf '%s\n' "$charges" | sed 's/^/preempter /')" price "$@"
}

# alike FILE OTHER PROGRAM ARGUMENT..: on both files, the program prints the same lines but for those of the preempters, and nothing on standard error
alike() {
    one=$1 other=$2
    shift 2
    printed=$(runs "$@" <"$one" 2>"$errors" | grep -v '^preempter ')
    [ -n "$printed" ] || { failed=1; printf '%s < %s\nprinted nothing\n' "$*" "$one"; }
    [ ! -s "$errors" ] || { failed=1; cat "$errors"; }
    again=$(runs "$@" <"$other" 2>"$errors" | grep -v '^preempter ')
    [ "$again" = "$printed" ] && [ ! -s "$errors" ] && return
    failed=1
    printf '%s < %s\nshould print\n%s\nand printed\n%s\n' "$*" "$other" "$printed" "$again"
    cat "$errors"
}

# File Seven
at_1_2='task 7 blocks 4 points 2 lines 1 cost 10
region 0 1 length 20
region 1 2 length 20
region 2 4 length 50'
at_3='task 7 blocks 4 points 1 lines 1 cost 10
region 0 3 length 60
region 3 4 length 30'
at_2_3='task 7 blocks 4 points 2 lines 2 cost 20
region 0 2 length 40
region 2 3 length 30
region 3 4 length 30'
at_1_2_3='task 7 blocks 4 points 3 lines 2 cost 20
region 0 1 length 20
region 1 2 length 20
region 2 3 length 30
region 3 4 length 30'
prints $seven-70 'task 7 blocks 4 points 1 lines 1 cost 10
region 0 1 length 20
region 1 4 length 70' plan
prints $seven-60 "$at_1_2" plan
prices $seven-60 "$at_1_2" '0 id 1 lines 1' 1 2
prices $seven-60 "$at_3" '0 id 1 lines 1' 3
prices $seven-60 "$at_3" '0 id 1 lines 1' 003
prints $seven-40 "$at_1_2_3" plan
prices $seven-40 "$at_2_3" '0 id 1 lines 2' 2 3
prices $seven-40 "$at_1_2_3" '0 id 1 lines 2' 1 2 3
prints $seven-30 "$at_1_2_3" plan
prices $seven-30 "$at_1_2_3" '0 id 1 lines 2' 1 2 3
prints $seven-29 'refused 6 at 0' plan
prints $seven-29 'refused 8 at 2' price 1 2 3
prints $seven-60 'refused 8 at 1' price 1
prints $seven-60 'refused 8 at 0' price
prints $seven-60 'refused 7 at 1' price 2 2
prints $seven-60 'refused 7 at 0' price 0
prints $seven-60 'refused 7 at 0' price 65535

# each preempter's charge: a line that is loaded is charged to the first that touches it
charged=crates/planner_cases/data/charged
prices $charged-1-then-4-1 "$at_1_2_3" '0 id 71 lines 0
1 id 72 lines 2' 1 2 3
prices $charged-4-then-4-1 "$at_1_2_3" '0 id 71 lines 2
1 id 72 lines 0' 1 2 3
prices $charged-third "$at_1_2_3" '0 id 71 lines 0
1 id 72 lines 0
2 id 73 lines 2
3 id 74 lines 0' 1 2 3
prices $charged-4-then-1 "$at_1_2_3" '0 id 71 lines 2
1 id 72 lines 0' 1 2 3
prices $charged-1-then-4 "$at_1_2_3" '0 id 71 lines 0
1 id 72 lines 2' 1 2 3
prints $charged-third "$at_1_2" plan
prints $charged-third 'refused 8 at 1' price 1

# File Seven at Q 60 with armed blocks and Q2
prints $seven-armed-none "$at_1_2" plan
prints $seven-armed-1 "$at_1_2" plan
prints $seven-armed-1-19 'refused 6 at 0' plan
prints $seven-armed-1-19 'refused 8 at 0' price 1 2
prints $seven-armed-3 "$at_1_2_3" plan
prices $seven-armed-3 "$at_2_3" '0 id 1 lines 2' 2 3
prints $seven-armed-3-29 'refused 6 at 0' plan
prints $seven-armed-3-50 "$at_1_2" plan
prints $seven-armed-4 "$at_3" plan
prints $seven-armed-4 'refused 8 at 1' price 2
prints $seven-armed-4-50 "$at_1_2" plan
prints $seven-armed-2-and-3 "$at_1_2_3" plan
prints $seven-armed-all-39 "$at_1_2_3" plan
prints $seven-armed-all-39 'refused 8 at 0' price 2 3
prices $seven-armed-all-40 "$at_2_3" '0 id 1 lines 2' 2 3
prints $seven-armed-all-40 "$at_1_2_3" plan
prints $seven-armed-all-70 'refused 8 at 1' price 1

# File Seven with G 5: a region that starts at a point is 5 longer and costs 5 more
switched_at_2='task 7 blocks 4 points 1 lines 1 cost 15
region 0 2 length 40
region 2 4 length 55'
switched_at_3='task 7 blocks 4 points 1 lines 1 cost 15
region 0 3 length 60
region 3 4 length 35'
switched_at_1_2='task 7 blocks 4 points 2 lines 1 cost 20
region 0 1 length 20
region 1 2 length 25
region 2 4 length 55'
switched_at_2_3='task 7 blocks 4 points 2 lines 2 cost 30
region 0 2 length 40
region 2 3 length 35
region 3 4 length 35'
switched_at_1_2_3='task 7 blocks 4 points 3 lines 2 cost 35
region 0 1 length 20
region 1 2 length 25
region 2 3 length 35
region 3 4 length 35'
at_none='task 7 blocks 4 points 0 lines 0 cost 0
region 0 4 length 80'
prints $seven-switch-80 "$at_none" plan
prints $seven-switch-60 "$switched_at_2" plan
prices $seven-switch-60 "$switched_at_2" '0 id 1 lines 1' 2
prices $seven-switch-60 "$switched_at_3" '0 id 1 lines 1' 3
prices $seven-switch-60 "$switched_at_1_2" '0 id 1 lines 1' 1 2
prints $seven-switch-60 'refused 8 at 0' price
prints $seven-switch-60 'refused 8 at 1' price 1
prints $seven-switch-55 "$switched_at_2" plan
prices $seven-switch-55 "$switched_at_2" '0 id 1 lines 1' 2
prints $seven-switch-50 "$switched_at_2_3" plan
prints $seven-switch-50 'refused 8 at 1' price 2
prints $seven-switch-40 "$switched_at_2_3" plan
prices $seven-switch-40 "$switched_at_1_2_3" '0 id 1 lines 2' 1 2 3
prints $seven-switch-35 "$switched_at_1_2_3" plan
prices $seven-switch-35 "$switched_at_1_2_3" '0 id 1 lines 2' 1 2 3
prints $seven-switch-34 'refused 6 at 0' plan
prints $seven-switch-34 'refused 8 at 2' price 1 2 3
prints $seven-long-switch-80 "$at_none" plan
prints $seven-long-switch-80 'refused 8 at 1' price 2
prints $seven-long-switch-79 'refused 6 at 0' plan

# nothing is reloaded, and a switch is paid for; with Q2 a region fits with its switch
prints $seven-switch-scratch 'task 7 blocks 4 points 1 lines 0 cost 5
region 0 2 length 40
region 2 4 length 45' plan
prints $seven-switch-armed-4-35 "$switched_at_3" plan
prints $seven-switch-armed-4-34 'refused 6 at 0' plan
prints $seven-switch-armed-4-34 'refused 8 at 1' price 3

# two lines or one point more: at G 2 they cost the same with R 1, and 1, 3 comes before 2
dear=crates/planner_cases/data/dear-switch
prints $dear-2 'task 7 blocks 4 points 2 lines 0 cost 4
region 0 1 length 40
region 1 3 length 22
region 3 4 length 42' plan
prints $dear-3 'task 7 blocks 4 points 1 lines 2 cost 5
region 0 2 length 50
region 2 4 length 55' plan
prints crates/planner_cases/data/wide-switch 'task 4294967295 blocks 4 points 2 lines 0 cost 4294967296
region 0 2 length 4294967294
region 2 3 length 4294967295
region 3 4 length 4294967295' plan

# all fitting lists by number: number and price
from_2='2 10
3 10
4 10
5 20
6 20
7 20'
prints $seven-29 '' lists
prints $seven-30 '7 20' lists
prints $seven-40 '6 20
7 20' lists
prints $seven-60 "$from_2" lists
prints $seven-70 "1 10
$from_2" lists
prints $seven-switch-80 '0 0
1 15
2 15
3 20
4 15
5 30
6 30
7 35' lists
prints $seven-switch-60 '2 15
3 20
4 15
5 30
6 30
7 35' lists
prints $seven-switch-40 '6 30
7 35' lists
prints $seven-switch-34 '' lists
prints $seven-long-switch-80 '0 0' lists
prints $seven-long-switch-79 '' lists
prints crates/planner_cases/data/one-60 '0 0' lists
prints crates/planner_cases/data/one-59 '' lists
prints /dev/null 'refused 1 at 0' lists
prints $damaged/sum-block-3 'refused 2 at 3' lists
prints $largest 'refused 15 at 0' lists
# every list of 16 blocks fits, and nothing is reloaded: M is 0
makes "$parts/short" generate 1 16 0 512 4294967295 1
prints "$parts/short" "$(seq -f '%.0f 0' 0 32767)" lists
makes "$parts/long" generate 1 17 0 512 4294967295 1
prints "$parts/long" 'refused 15 at 0' lists

# the last read of line 0 is its only reload
prints crates/planner_cases/data/last-read 'task 7 blocks 3 points 2 lines 1 cost 10
region 0 1 length 20
region 1 2 length 20
region 2 3 length 30' plan

# the picture of a plan, which tests/picture.py reads
input=crates/picture/stdin
writes docs/plan-seven.svg picture
input=/dev/null

# the misses of a list, within the limit or not
prints $seven-60 'misses 4 with points 4' replay
prints $seven-60 'misses 4 with points 5' replay 3
prints $seven-60 'misses 4 with points 5' replay 1 2
prints $seven-29 'misses 4 with points 6' replay 1 2 3
prints $seven-60 'refused 7 at 1' replay 2 2
prints $seven-60 'refused 7 at 0' replay 4
# the same with any G
for list in '' 1 2 3 '1 2' '1 3' '2 3' '1 2 3' '2 2' 0 4; do
    alike $seven-60 $seven-switch-60 replay $list
    alike $seven-60 $seven-long-switch-79 replay $list
done

# number 0 of File Seven bypasses the cache: a search looks at it and goes on, a replay counts it as neither hit nor miss
prints $seven-scratch 'task 7 blocks 4 points 1 lines 0 cost 0
region 0 1 length 20
region 1 4 length 60' plan
prints $seven-scratch 'none looked 4' next_read 0 1
prints $seven-scratch 'read 5 looked 3' next_read 1 1
prints $seven-scratch 'lines' useful 1
prints $seven-scratch 'misses 3 with points 3' replay 1 2 3
prints $damaged/scratch-first-beyond 'refused 3 at 0' plan

# of the preempters nothing but their lines matters: other numbers, orders and ids, the same answers, refusals too
for base in $seven-60 $seven-scratch-4 crates/planner_cases/data/high-45; do
    alike $base $base-other plan
    for list in '' 1 2 3 '1 2' '1 3' '2 3' '1 2 3' '2 2' 0 9; do
        alike $base $base-other price $list
        alike $base $base-other replay $list
    done
    for k in 0 1 2 3 4 5; do
        alike $base $base-other useful $k
        for line in 0 1 2 3 4 300 512; do
            alike $base $base-other next_read $line $k
        done
    done
done

# the file's refusals come before those of the list
prints /dev/null 'refused 1 at 0' price 2 2
prints $damaged/sum-block-3 'refused 2 at 3' price 2 2
prints $damaged/n-65 'refused 3 at 0' price 2 2
prints $damaged/sum-block-3 'refused 2 at 3' replay 2 2

# a list of 64 points or more is refused at one of the first 64
prints $largest 'refused 7 at 63' price $(seq 64)
prints $largest 'refused 7 at 63' price $(seq 70)
prints $largest 'refused 7 at 0' price 0 $(seq 70)
prints $largest 'refused 7 at 63' replay $(seq 70)

# next_read LINE K: the number of the next read of the line after block K, and how many reads were looked at
prints $seven-60 'read 0 looked 1' next_read 0 0
prints $seven-60 'read 0 looked 2' next_read 0 1
prints $seven-60 'read 0 looked 1' next_read 0 2
prints $seven-60 'read 0 looked 2' next_read 0 3
prints $seven-60 'read 1 looked 2' next_read 1 0
prints $seven-60 'read 5 looked 3' next_read 1 1
prints $seven-60 'read 5 looked 1' next_read 1 3
prints $seven-60 'read 2 looked 3' next_read 2 0
prints $seven-60 'none looked 3' next_read 2 2
prints $seven-60 'none looked 6' next_read 3 0
prints $seven-60 'none looked 0' next_read 0 4
prints $seven-60 'read 5 looked 3' next_read 01 001
prints $high 'read 300 looked 3' next_read 300 1
prints $high 'read 44 looked 2' next_read 44 1
prints $high 'none looked 2' next_read 44 2

# nothing lies on a line of S or more
prints $seven-60 'none looked 6' next_read 4 0
prints $seven-60 'none looked 4' next_read 5 1
prints $seven-60 'none looked 6' next_read 512 0
prints $seven-60 'none looked 6' next_read 4294967296 0
prints $seven-60 'none looked 6' next_read 18446744073709551615 0
prints $largest 'none looked 7936' next_read 512 0
prints $largest 'none looked 124' next_read 512 63

prints $seven-60 'refused 7 at 0' next_read 0 5
prints $seven-60 'refused 7 at 0' next_read 4 5
prints $seven-60 'refused 7 at 0' next_read 0 4294967296
prints $seven-60 'refused 7 at 0' next_read 0 18446744073709551615
prints /dev/null 'refused 1 at 0' next_read 0 5
prints $damaged/len-513 'refused 1 at 0' next_read 0 0
prints $damaged/sum-block-3 'refused 2 at 3' next_read 0 5
prints $damaged/n-65 'refused 3 at 0' next_read 0 0
prints $damaged/count-one-few 'refused 4 at 0' next_read 0 0
prints $damaged/r-125 'refused 5 at 1' next_read 0 0

# useful K
prints $seven-60 'lines' useful 0
prints $seven-60 'lines 0' useful 1
prints $seven-60 'lines 0' useful 2
prints $seven-60 'lines 0' useful 3
prints $seven-60 'lines' useful 4
prints $seven-60 'lines 0' useful 02
prints $seven-60 'refused 7 at 0' useful 5
prints $seven-60 'refused 7 at 0' useful 18446744073709551615
prints $high 'lines 0 300' useful 1
prints /dev/null 'refused 1 at 0' useful 5
prints $damaged/sum-block-3 'refused 2 at 3' useful 5
prints $damaged/n-65 'refused 3 at 0' useful 0
prints $damaged/count-one-few 'refused 4 at 0' useful 0
prints $damaged/r-125 'refused 5 at 1' useful 0

usage price x
usage price 3x
usage price ''
usage price -1
usage price +1
usage price ' 1'
usage price 65536
usage price 18446744073709551617
usage price 1 2 y
usage price $(seq 70) 65536
usage next_read
usage next_read 0
usage next_read 0 1 2
usage next_read x 1
usage next_read 0 x
usage next_read -1 1
usage next_read 0 ''
usage next_read 0 '1 '
usage next_read 18446744073709551616 0
usage next_read 0 18446744073709551616
usage useful
usage useful ''
usage useful x
usage useful -1
usage useful 1 2
usage useful 18446744073709551616

usage replay x
usage replay $(seq 70) 65536

# these take no arguments
usage plan $seven-60
usage plan --help
usage picture x
usage lists x
usage show x
usage assemble x

# a file from a seed is written whole and accepted: its refusals 1 to 5 would come before 7
for numbers in '0 1 0 1 0 0' '7 16 3 256 20000 25' '4294967295 64 32 512 4294967295 4294967295'; do
    makes "$made" generate $numbers
    prints "$made" 'refused 7 at 0' price 0
done
[ "$(wc -c <"$made")" -eq 49664 ] || { failed=1; echo 'the largest file from a seed is not 49664 bytes'; }
ends_at_id "$made"
reports 'refused 10 at 0' generate 1 0 0 1 0 0
reports 'refused 10 at 0' generate 1 65 0 1 0 0
reports 'refused 10 at 0' generate 1 1 33 1 0 0
reports 'refused 10 at 0' generate 1 1 0 513 0 0
reports 'refused 10 at 0' generate 1 4294967295 4294967295 1 0 0
usage generate
usage generate 1 1 0 1 0
usage generate 1 1 0 1 0 0 0
usage generate 4294967296 1 0 1 0 0
usage generate 1 1 0 1 0 x

# a file from a trace, read from standard input: 10, then 13 at the lowest malformed line, then 14
input=$parts/text
given() {
    printf "$1" >"$input"
}
# worked by hand: of 1200 and 1a00, in blocks of 256 bytes, 18 and 26; one basic block of 2 times 3 ticks
given '0 1200\n2 1A00\n'
makes "$made" trace 256 124 3 8 6 10 5
[ "$(wc -c <"$made")" -eq 1024 ] || { failed=1; echo 'a file of two records is not 1024 bytes'; }
prints "$made" 'task 5 blocks 1 points 0 lines 0 cost 0
region 0 1 length 6' plan
prints "$made" 'read 18 looked 1' next_read 2 0
prints "$made" 'misses 2 with points 2' replay
makes "$made" trace 256 1 3 8 6 10 5
[ "$(wc -c <"$made")" -eq 1536 ] || { failed=1; echo 'a file of two basic blocks is not 1536 bytes'; }
prints "$made" 'task 5 blocks 2 points 0 lines 0 cost 0
region 0 2 length 6' plan
for numbers in '0 1 1 1 0 0 0' '1 0 1 1 0 0 0' '1 125 1 1 0 0 0' '1 1 1 0 0 0 0' '1 1 1 513 0 0 0'; do
    reports 'refused 10 at 0' trace $numbers
done
for line in '\n' '3 0\n' '0\t0\n' '0  0\n' ' 0 0\n' '0 0 \n' '0 0\r\n' '0 +1\n' '0 0x1\n' '0 \n' '0 123456789\n' '0 g\n' '0 \200\n' '0 1\000\n' '0 1'; do
    given "0 1\n$line"
    reports 'refused 13 at 1' trace 1 1 1 1 0 0 0
done
given '0 1\n0\n0 2\nx\n'
reports 'refused 13 at 1' trace 1 1 4294967295 1 0 0 0
given ''
reports 'refused 14 at 0' trace 1 1 1 1 0 0 0
given '0 1\n0 2\n'
reports 'refused 14 at 0' trace 1 2 2147483648 1 0 0 0
makes "$made" trace 1 1 4294967295 1 0 0 0
# a short block's time is that of its own records
given '0 1\n'
makes "$made" trace 1 2 4294967295 1 0 0 0
yes '0 1' | head -n 7936 >"$input"
makes "$made" trace 1 124 1 1 0 0 0
[ "$(wc -c <"$made")" -eq 33280 ] || { failed=1; echo 'the largest file from a trace is not 33280 bytes'; }
makes "$made" trace 1 124 1 512 4294967295 4294967295 4294967295
ends_at_id "$made"
yes '0 1' | head -n 7937 >"$input"
reports 'refused 14 at 0' trace 1 124 1 1 0 0 0
# a malformed line is found far behind what a file holds
{ yes '2 00ABcdef' | head -n 300000; echo '2 00ABcdefg'; } >"$input"
reports 'refused 13 at 300000' trace 1 124 1 1 0 0 0
input=/dev/null
usage trace
usage trace 1 1 1 1 0 0
usage trace 1 1 1 1 0 0 0 0
usage trace 4294967296 1 1 1 0 0 0
usage trace 1 1 1 1 0 0 -1

# two files joined: the smaller Q and Q2, the first's id, the G of both, the basic blocks of both, then the preempters of both
writes $joined/ticket-archive join $joined/ticket $joined/archive
prints "$made" 'task 21 blocks 5 points 1 lines 1 cost 8
region 0 2 length 55
region 2 5 length 78' plan
writes $joined/archive-ticket join $joined/archive $joined/ticket
prints "$made" 'task 22 blocks 5 points 1 lines 1 cost 8
region 0 2 length 55
region 2 5 length 78' plan

# of three files either two are joined first
makes "$parts/three" join $joined/ticket-archive $joined/ticket
writes "$parts/three" join $joined/ticket $joined/archive-ticket
prints "$made" 'misses 5 with points 9' replay 2 3 5

# the useful lines of a file are useful at the same edge of the joined one
prints $joined/ticket 'lines 1' useful 1
prints $joined/archive 'lines 2' useful 1
prints $joined/archive 'lines 2' useful 2
prints $joined/ticket-archive 'lines 1 2' useful 1
prints $joined/ticket-archive 'lines 2 3' useful 2
prints $joined/ticket-archive 'lines 2' useful 3
prints $joined/ticket-archive 'lines 2' useful 4

# File Seven with Q 60 and 40
makes "$made" join $seven-60 $seven-40
at_all='task 7 blocks 8 points 7 lines 5 cost 50
region 0 1 length 20
region 1 2 length 20
region 2 3 length 30
region 3 4 length 30
region 4 5 length 30
region 5 6 length 20
region 6 7 length 30
region 7 8 length 30'
prints "$made" "$at_all" plan
prices "$made" "$at_all" '0 id 1 lines 5
1 id 1 lines 0' 1 2 3 4 5 6 7
prints "$made" 'refused 8 at 3' price 1 2 3
prints "$made" 'refused 7 at 1' price 4 8
prints "$made" 'lines 0' useful 1
prints "$made" 'lines 0 2' useful 4
prints "$made" 'lines 0' useful 7
prints "$made" 'misses 6 with points 7' replay 4
prints "$made" 'misses 6 with points 11' replay 1 2 3 4 5 6 7

# File Seven with G 5, twice
makes "$made" join $seven-switch-60 $seven-switch-80
switched='task 7 blocks 8 points 3 lines 2 cost 35
region 0 3 length 60
region 3 5 length 55
region 5 6 length 25
region 6 8 length 55'
prints "$made" "$switched" plan
prices "$made" "$switched" '0 id 1 lines 2
1 id 1 lines 0' 3 5 6
prints "$made" 'refused 8 at 1' price 3

# 64 basic blocks and 32 preempters, and one more of either
makes "$parts/63-31" generate 1 63 31 4 0 10
makes "$parts/1-1" generate 2 1 1 4 0 10
makes "$parts/2-1" generate 3 2 1 4 0 10
makes "$parts/1-2" generate 4 1 2 4 0 10
makes "$made" join "$parts/63-31" "$parts/1-1"
[ "$(wc -c <"$made")" -eq 49664 ] || { failed=1; echo 'the largest joined file is not 49664 bytes'; }
prints "$made" 'refused 7 at 63' replay $(seq 64)
reports 'refused 12 at 0' join "$parts/63-31" "$parts/2-1"
reports 'refused 12 at 0' join "$parts/1-2" "$parts/63-31"
reports 'refused 12 at 0' join $largest $largest

# another S, R, range, though it may have no number, or G; before 12
reports 'refused 11 at 0' join $seven-60 $high
reports 'refused 11 at 0' join $high crates/planner_cases/data/wide
reports 'refused 11 at 0' join $largest $high
reports 'refused 11 at 0' join $seven-60 $seven-switch-60
reports 'refused 11 at 0' join $seven-switch-60 $seven-60
reports 'refused 11 at 0' join $seven-switch-80 $seven-long-switch-80
for byte in 20 21 22 23 24 25 26 27 32 33 34 35; do
    reports 'refused 11 at 0' join $seven-60 $damaged/header-byte-$byte
    reports 'refused 11 at 0' join $damaged/header-byte-$byte $seven-60
done

# the first file's refusals, then the second's with 97 added to the place, before 11
for refused in 'len-0 1 0' 'len-50176 1 0' 'sum-block-0 2 0' 'sum-block-3 2 3' 'n-65 3 0' 'count-one-few 4 0' 'r-125 5 1' 'r-125-block-96 5 96'; do
    set -- $refused
    reports "refused $2 at $3" join $damaged/$1 $seven-60
    reports "refused $2 at $3" join $damaged/$1 $damaged/len-0
    reports "refused $2 at $3" join $damaged/$1 $damaged/sum-block-3
    reports "refused $2 at $(($3 + 97))" join $seven-60 $damaged/$1
    reports "refused $2 at $(($3 + 97))" join $largest $damaged/$1
done

usage join
usage join $seven-60
usage join $seven-60 $seven-60 $seven-60

# the text of File Seven, and back; tests/texts.py has the rest
seven_text='task 7
lines 4
limit 60
sampler 0
reload 10
switch 0
scratch 0 0
block 20 0 1
block 20 2
block 20 0
block 20 5 0
preempter 1 4 1'
prints $seven-60 "$seven_text" show
prints $damaged/sum-block-3 'refused 2 at 3' show
input=$parts/text
printf '%s\n' "$seven_text" >"$input"
writes $seven-60 assemble
input=/dev/null

# deadlines HORIZON: a line `e p d q` of standard input for each task
set=$parts/set
tasks() {
    printf '%s\n' "$@" >"$set"
}

tasks '2 5 5 1'
prints "$set" 'yes' deadlines 20
tasks '2 4 4 1' '3 6 6 1'
prints "$set" 'yes' deadlines 100
tasks '2 4 4 1' '4 6 6 1'
prints "$set" 'yes' deadlines 11
for horizon in 12 13 100 16777215; do
    prints "$set" 'no at 12' deadlines $horizon
done

# the second task blocks the first by its region
tasks '1 10 3 1' '1 10 9 3'
prints "$set" 'no at 3' deadlines 100
prints "$set" 'no at 3' deadlines 3
prints "$set" 'yes' deadlines 2
prints "$set" 'yes' deadlines 0
tasks '1 10 3 1' '1 10 9 2'
prints "$set" 'yes' deadlines 100

# the longest test, and the largest numbers
{
    echo '1 1 2 1'
    for i in 1 2 3 4 5 6 7 8 9 10 11 12 13 14 15; do echo '1 1 16777215 1'; done
} >"$set"
prints "$set" 'no at 16777215' deadlines 16777215
prints "$set" 'yes' deadlines 16777214
tasks '16777215 16777215 16777215 16777215'
prints "$set" 'yes' deadlines 16777215
tasks '16777215 1 1 16777215'
prints "$set" 'no at 1' deadlines 16777215

# 16 at 0: 0 or 17 records, a field or the horizon out of range, however large
prints /dev/null 'refused 16 at 0' deadlines 20
for i in 1 2 3 4 5 6 7 8 9 10 11 12 13 14 15 16; do echo '1 100 100 1'; done >"$set"
prints "$set" 'yes' deadlines 20
echo '1 100 100 1' >>"$set"
prints "$set" 'refused 16 at 0' deadlines 20
for line in '0 5 5 1' '2 0 5 1' '2 5 0 1' '2 5 5 0'; do
    tasks '2 5 5 1' "$line"
    prints "$set" 'refused 16 at 0' deadlines 20
done
for number in 16777216 4294967296 4294967301 18446744073709551616 100000000000000000000000000000000000001; do
    for line in "$number 5 5 1" "2 $number 5 1" "2 5 $number 1" "2 5 5 $number"; do
        tasks "$line"
        prints "$set" 'refused 16 at 0' deadlines 20
    done
    tasks '2 5 5 1'
    prints "$set" 'refused 16 at 0' deadlines $number
done
tasks '02 00005 5 0000000000000000000000000000000000000001'
prints "$set" 'yes' deadlines 0020
printf '2 5 5 1' >"$set"
prints "$set" 'yes' deadlines 20

# a line that is not four numbers, also behind a set that is refused
for line in '' '1 2 3' '1 2 3 4 5' '1  2 3 4' ' 1 2 3 4' '1 2 3 4 ' '1 2 3 x' '1 2 3 -4' '+1 2 3 4' '1,2 3 4' '1	2 3 4'; do
    tasks "$line"
    usage_with "$set" deadlines 20
    tasks '0 5 5 1' '2 5 5 1' "$line"
    usage_with "$set" deadlines 20
done
printf '2 5 5 1\r\n' >"$set"
usage_with "$set" deadlines 20
tasks '2 5 5 1'
usage_with "$set" deadlines
usage_with "$set" deadlines x
usage_with "$set" deadlines -1
usage_with "$set" deadlines ''
usage_with "$set" deadlines 20 20
usage_with $largest deadlines 20

for program in $programs; do
    grep -qx "$program" "$parts/run" || { failed=1; echo "$program is not tried"; }
done

exit $failed
