#!/usr/bin/env bash
# tests/axp-file.sh PROGRAM..: axp-file on the sample file, made, listed and read back, with errors, damaged and refused. PROGRAM may be
# a command with arguments, as under valgrind. It stops at the first line that is not as it must be.
set -u
cd "$(dirname "$0")/.." || exit 1
work=$(mktemp -d)
trap 'rm -rf "$work"' EXIT
week=$work/week.axp

must() { # STATUS COMMAND..: the exit status of a command; what it prints stands in $work/out and $work/err
    local status=$1
    shift
    "$@" >"$work/out" 2>"$work/err"
    local got=$?
    if [ "$got" -ne "$status" ]; then
        echo "axp-file.sh: exit status $got, not $status: $*"
        cat "$work/out" "$work/err"
        exit 1
    fi
}

same() { # FILE FILE
    cmp "$1" "$2" || exit 1
}

says() { # TEXT: the last command said this on standard error
    if ! grep -qF -- "$1" "$work/err"; then
        echo "axp-file.sh: not said: $1"
        cat "$work/err"
        exit 1
    fi
}

put() { # FILE OFFSET BYTES: writes over bytes of a file
    printf "$3" | dd of="$1" bs=1 seek="$2" conv=notrunc status=none
}

# The sample, made in two steps, and listed.
must 0 "$@" add "$week" 20261116=samples/monday.txt 20261117=samples/tuesday.txt
must 0 "$@" add "$week" 0x13528fe=samples/wednesday.txt
same "$week" samples/week.axp
must 0 "$@" list samples/week.axp
same "$work/out" samples/week.txt

# The payloads again, on standard output and in a file.
index=0
for day in monday tuesday wednesday; do
    must 0 "$@" extract samples/week.axp "$index"
    same "$work/out" "samples/$day.txt"
    [ -s "$work/err" ] && says nothing
    must 0 "$@" extract samples/week.axp "$index" "$work/payload"
    same "$work/payload" "samples/$day.txt"
    index=$((index + 1))
done
must 1 "$@" extract samples/week.axp 3
says 'no entry 3'

# Errors in one track of the last record, then in one of each set, by each ceiling. Wednesday's record begins at byte 206, ten bytes
# a track, A0, B0, A1.
put "$week" 211 '\252'
must 0 "$@" extract "$week" 2
same "$work/out" samples/wednesday.txt
says 'cells changed A0'
for ceiling in 1 2 0x2; do
    must 0 "$@" extract -c "$ceiling" "$week" 2 "$work/payload"
    same "$work/payload" samples/wednesday.txt
    says 'cells changed A0'
done
must 1 "$@" extract -c 0 "$week" 2
says 'no good record is in reach (answer 7)'
must 0 "$@" extract -c 0 "$week" 0
same "$work/out" samples/monday.txt
put "$week" 221 '\252'
for ceiling in '' '-c 0' '-c 1'; do
    must 1 "$@" extract $ceiling "$week" 2 "$work/none"
    says 'no good record is in reach (answer 7)'
done
must 0 "$@" extract -c 2 "$week" 2
same "$work/out" samples/wednesday.txt
says 'cells changed A0 B0'
for ceiling in 3 256 4294967295; do
    for index in 0 2; do
        must 1 "$@" extract -c "$ceiling" "$week" "$index" "$work/none"
        says 'the ceiling is above 2 (answer 12)'
    done
done
[ -e "$work/none" ] && { echo 'axp-file.sh: a refused payload was written'; exit 1; }
must 1 "$@" extract -c 3 "$week" 3
says 'no entry 3'
# A ceiling that is no number, or stands elsewhere.
for arguments in "-c $week 2" "-c" "-c 2" "-c 2 $week" "-c two $week 2" "-c -1 $week 2" "-c 4294967296 $week 2" "$week 2 -c 2" "$week -c 2 2"; do
    must 2 "$@" extract $arguments
    says 'usage: axp-file'
done
# In three tracks of a set.
put "$week" 231 '\252'
put "$week" 251 '\252'
for ceiling in '' '-c 0' '-c 1' '-c 2'; do
    must 1 "$@" extract $ceiling "$week" 2
    says 'no good record is in reach (answer 7)'
done
# A padding bit is the packed record's matter, not the file's.
put "$week" 215 '\377'
must 0 "$@" list "$week"
must 1 "$@" extract "$week" 2
says 'a padding bit is 1 (answer 8)'
must 0 "$@" extract "$week" 0
same "$work/out" samples/monday.txt

# What is refused leaves the file as it was.
cp samples/week.axp "$week"
printf 'thirteen byte' >"$work/13"
must 1 "$@" add "$week" 1=samples/monday.txt "2=$work/13"
says '14 bytes a block'
head -c 3598 /dev/zero >"$work/257"
must 1 "$@" add "$week" "1=$work/257"
must 2 "$@" add "$week" monday=samples/monday.txt
must 2 "$@" add "$week" 4294967296=samples/monday.txt
must 2 "$@" add "$week" "1=$work/missing"
head -c 3584 /dev/zero >"$work/256"
must 1 "$@" add "$week" $(for k in $(seq 14); do echo "$k=$work/256"; done)
says '(answer 11)'
must 1 "$@" add "$week" $(for k in $(seq 62); do echo "$k=samples/tuesday.txt"; done)
says '(answer 11)'
same "$week" samples/week.axp
must 0 "$@" add "$week" $(for k in $(seq 61); do echo "$k=samples/tuesday.txt"; done)
must 0 "$@" extract "$week" 63
must 1 "$@" add "$week" 1=samples/tuesday.txt
says '(answer 11)'

# Damaged files, by each command.
head -c 385 samples/week.axp >"$work/cut"
for command in "list $work/cut" "extract $work/cut 0" "add $work/cut 1=samples/monday.txt" "list samples/text.txt"; do
    must 1 "$@" $command
    says 'the file is no cartridge file (answer 10)'
done
must 2 "$@" list "$work/missing"
must 2 "$@" list "$work"
must 2 "$@" list
must 2 "$@" extract samples/week.axp one
must 2 "$@" add "$work/no/such/place" 1=samples/monday.txt
echo 'axp-file.sh: ok'
