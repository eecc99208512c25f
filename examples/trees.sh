#!/bin/sh
# Makes trees of many shapes with git, in two repositories in a new folder: `sh examples/trees.sh FOLDER`.
# Records each in FOLDER/FORMAT.answers, as git prints it:
# - NAME.hex (`git cat-file tree`, in hex), NAME.id (`git hash-object -t tree --stdin`)
# - NAME.type (`git cat-file -t` and `-s`), NAME.listed (`git ls-tree -z`)
# Most trees are made by `git mktree`, and those that it can't make by `git hash-object --literally`. Names have the
# escapes of printf. The table crates/gixobj_tests_replay/data/git-trees.tsv has these answers.
set -e
unset GIT_DIR GIT_WORK_TREE
export GIT_CONFIG_GLOBAL=/dev/null GIT_CONFIG_NOSYSTEM=1
export GIT_AUTHOR_NAME='A U Thor' GIT_AUTHOR_EMAIL=author@example.com GIT_AUTHOR_DATE='1700000000 +0100'
export GIT_COMMITTER_NAME='C O Mitter' GIT_COMMITTER_EMAIL=c@example.com GIT_COMMITTER_DATE='1700000001 -0730'
mkdir -p "$1"
cd "$1"
FOLDER=$PWD

# record NAME ID: records the tree as git prints it.
record() {
    git cat-file tree "$2" > "$FOLDER/bytes"
    od -An -v -tx1 "$FOLDER/bytes" | tr -d ' \n' > "$answers/$1.hex"
    git hash-object -t tree --literally --stdin < "$FOLDER/bytes" > "$answers/$1.id"
    { git cat-file -t "$2"; git cat-file -s "$2"; } > "$answers/$1.type"
    git ls-tree -z "$2" > "$answers/$1.listed"
}

# file, program, link, directory, module NAME: a line of input for `git mktree -z`.
file() { printf "100644 blob $blob\t$1\0"; }
program() { printf "100755 blob $blob\t$1\0"; }
link() { printf "120000 blob $blob\t$1\0"; }
directory() { printf "040000 tree $tree\t$1\0"; }
module() { printf "160000 commit $commit\t$1\0"; }

# made NAME: the tree of the lines on standard input, in git's order.
made() {
    record "$1" "$(git mktree -z --missing)"
}

# entry MODE NAME ID: the encoding of an entry.
entry() {
    printf "$1 $2\0$(printf '\\%03o' $(echo "$3" | sed 's/../0x& /g'))"
}

# literal NAME: the tree whose content is standard input.
literal() {
    record "$1" "$(git hash-object -t tree -w --literally --stdin)"
}

# of_mode NAME MODE ID: the tree of one entry `a` of this mode.
of_mode() {
    entry "$2" a "$3" | literal "$1"
}

for format in sha1 sha256; do
    answers=$FOLDER/$format.answers
    mkdir "$answers"
    git init -q --object-format=$format $format
    cd $format
    blob=$(printf 'hello\n' | git hash-object -w --stdin)
    tree=$(file inside | git mktree -z)
    commit=$(printf 'one\n' | git commit-tree $tree)
    null=$(echo $blob | tr 0-9a-f 0)
    high=$(echo $blob | tr 0-9a-f f)
    spaces=$(echo $blob | sed 's/../20/g')

    made empty < /dev/null
    file a | made one-file
    { file f; program p; link l; directory d; module m; } | made kinds
    { file a-; file a.b; directory a; file a0; } | made near-a-directory
    file '\200\377' | made no-utf-8
    of_mode group-writes 100664 $blob
    of_mode leading-zero 040000 $tree
    of_mode no-leading-zero 40000 $tree
    of_mode zeros-before-a-tree 0040000 $tree

    if [ $format = sha1 ]; then
        { file a; file a-; file a.b; file a0; directory ab; } | made near-a-file
        { program a; program b; } | made programs
        { link a; link b; } | made links
        { directory a; directory a-; directory a.b; directory a0; } | made directories
        { module a; module a-; module a0; } | made submodules
        { file ' '; file ' a'; file 'a b'; file 'a '; file '  a  b  '; } | made spaces
        { file '\n'; file 'a\nb'; file 'a\r\n'; } | made newlines
        { file 'a\tb'; file '"a"'; file 'a\\b'; file '%%s'; file "a'b"; } | made quotes
        { file '\303\251t\303\251'; file '\346\227\245'; file '\360\237\230\200'; } | made utf-8
        { file '\351t\351'; file '\303'; file 'a\377'; } | made latin-1
        { file '\001'; file '\033[0m'; file '\177'; } | made control-bytes
        file "$(for byte in $(seq 1 255); do if [ $byte != 47 ]; then printf '\\%03o' $byte; fi; done)" | made all-bytes
        file "$(printf '%0255d' 0)" | made long-name
        { file 100644; file '40000 a'; file 0; directory 40000; } | made names-like-modes
        { directory .; directory ..; directory .git; file .gitmodules; link .gitignore; } | made dots
        { file a; directory a; } | made file-and-directory
        { file a; link a; file a; } | made one-name
        { printf "100644 blob $null\ta\0"; printf "040000 tree $null\tb\0"; } | made null-ids
        { printf "100644 blob $high\ta\0"; printf "160000 commit $spaces\tb\0"; } | made odd-ids
        { directory b; file b.c; module a; link c; program d; file e; } | made several

        { entry 100644 b $blob; entry 100644 a $blob; entry 40000 a $tree; } | literal not-sorted
        { entry 100644 a/b $blob; entry 40000 c/ $tree; entry 100644 / $blob; } | literal slashes
        { entry 100644 a $blob; entry 040000 b $tree; entry 40000 c $tree; } | literal leading-zero-between
        { entry 100600 a $blob; entry 100700 b $blob; entry 100777 c $blob; entry 100000 d $blob; } | literal permissions
        { entry 40755 a $tree; entry 120777 b $blob; entry 160755 c $commit; } | literal permissions-of-others
        { entry 0 a $commit; entry 010000 b $commit; entry 020666 c $commit; entry 060000 d $commit; } | literal no-types
        { entry 40000 ' a' $tree; entry 0 ' ' $commit; entry 100644 ' 40000 a' $blob; } | literal spaces-behind-modes

        of_mode zero-before-a-file 0100644 $blob
        of_mode one-before-a-file 1100644 $blob
        of_mode three-digits 777 $commit
        of_mode six-digits 000777 $commit
        of_mode zero-before-permissions 040755 $tree
        of_mode tree-with-permissions 40755 $tree
        of_mode no-type 0 $commit
        of_mode zeros 0000000 $commit

        for name in $(seq 1000 1999); do file $name; done | made thousand
    fi
    cd ..
done
