#!/bin/sh
# Prints which names of tags are valid, by git: `sh examples/tag-names.sh`. For each name it prints a line, its bytes in
# hex, a space, and `ok` or `bad`, by `git check-ref-format refs/tags/NAME`. Before each group of names it prints a line
# that begins with `#`. An argument of a command can't have a zero byte, so no name has one.
# The table crates/gixobj_tests_replay_messages/data/git-tag-names.tsv has these answers.
set -e

# check NAME: prints the line of the name.
check() {
    if git check-ref-format "refs/tags/$1"; then verdict=ok; else verdict=bad; fi
    echo "$(printf '%s' "$1" | od -An -v -tx1 | tr -d ' \n') $verdict"
}

# group: checks each line of standard input, in which names have the escapes of printf. Prints headings.
group() {
    while IFS= read -r line; do
        case $line in
        '# '*) echo "$line" ;;
        *)
            name=$(printf '%b.' "$line")
            check "${name%.}"
            ;;
        esac
    done
}

# repeat NUMBER BYTES: prints the bytes the number of times.
repeat() {
    printf "%$1s" '' | sed "s| |$2|g"
}

group <<'END'
# names without a fault
v1.0.0
0.2.1
0-alpha1
release/2024-01/rc1
a
A
0
_
=
a/b
a/b/c/d/e/f/g/h
refs
refs/tags/a
tags
HEAD
FETCH_HEAD
head
heads/main
master
objects
!"#$%&'()+,;<=>]_`{|}
a!b
(a)
{a}
<a>
"a"
'a'
# a dash
-
--
-a
-hello
--force
-/a
-@
-a/-b
a-
a/-
a/-b
# a dash, and a fault
-.
-/
-..
-.lock
-@{
-\\
-a b
-a/.b
# an at sign, and braces
@
@@
@a
a@
a@b
@/a
a/@
@/@
@-
{@
{
}
{}
@}
@/{
@{
@{a}
@{u}
@{-1}
a@{
a@{b
a@{b}
a@@{b
a/@{
a/@{/b
@{/a
# no byte, and slashes

/
//
///
/a
//a
a/
a//
a//b
a///b
a/b/
a/b//c
# dots
.
..
...
.a
..a
a.
a..
a...
a.b
a..b
a...b
a.b.c
.a.b
a/.
a/..
a/.b
a/..b
a/b.
a/b..
a./b
a../b
a./b./c
./a
../a
a/./b
a/../b
/.a
.git
a/.git/b
# the suffix of lock files
.lock
a.lock
.a.lock
..lock
a..lock
a/b.lock
a.lock/b
a/b.lock/c
a.lock/b.lock
.lock/a
a/.lock
a/.lock/b
a.lock.lock
a.lock.
a.lockb
a.lock.b
a.lock-
a.lock@
a.locK
a.LOCK
A.Lock
a.loc
a.lock /b
lock
alock
a/lock
lock/a
locks
a.lock//b
# two bytes of a character, and more
\0303\0244
\0303
\0244
Gr\0303\0266\0303\0237e
\0346\0227\0245\0346\0234\0254
\0360\0237\0230\0200
a/\0360\0237\0230\0200.lock
\0302\0240
\0302\0205
\0342\0200\0250
\0357\0274\0217a
\0357\0273\0277a
\0200
\0377
\0377\0376
.\0377
\0377.
\0377/\0377
# characters of control, and spaces
\0040
\0040a
a\0040
a b
a  b
\t
\n
a\n
\na
a\nb
a\r\n
\r
\033[0m
\0177
a\0177
\0037
a\0037b
# several faults
. ~
a..b@{c}
a\\b:c
a/ /b.
/.lock/
*
refs/*
a*
?
[a]
[
~1
a~1
^
a^
a^{}
a^2~3
:a
a:b
:/a
\\
\\a
a\\
END

echo '# long names'
check "$(repeat 200 a)"
check "$(repeat 100 a/)b"
check "$(repeat 100 a/)"
check "$(repeat 100 a.)b"
check "$(repeat 100 a.)"
check "$(repeat 200 a).lock"
check "$(repeat 200 a).lock/b"

echo '# each byte between two letters'
byte=1
while [ $byte -lt 256 ]; do
    check "$(printf "a\\$(printf %o $byte)b")"
    byte=$((byte + 1))
done
