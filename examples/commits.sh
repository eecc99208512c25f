#!/bin/sh
# Makes commits of many shapes with git, in two repositories in a new folder: `sh examples/commits.sh FOLDER`.
# Records each in FOLDER/FORMAT.answers, as git prints it:
# - NAME.id (`git rev-parse`), NAME.bytes (`git cat-file commit`), NAME.shown (`git show`, field by field)
# - NAME.signature, for a signed one: the value that `git verify-commit` passes to the verifier
# The table crates/gixobj_tests_replay/data/git-commits.tsv has these answers.
set -e
unset GIT_DIR GIT_WORK_TREE
export GIT_CONFIG_GLOBAL=/dev/null GIT_CONFIG_NOSYSTEM=1
export GIT_AUTHOR_NAME='A U Thor' GIT_AUTHOR_EMAIL=author@example.com GIT_AUTHOR_DATE='1700000000 +0100'
export GIT_COMMITTER_NAME='C O Mitter' GIT_COMMITTER_EMAIL=c@example.com GIT_COMMITTER_DATE='1700000001 -0730'
mkdir -p "$1"
cd "$1"
FOLDER=$PWD
export FOLDER

# A stand-in for gpg. It signs with three lines, and records the signature that it verifies.
cat > gpg <<'END'
#!/bin/sh
case " $* " in
*" --verify "*)
    while [ "$1" != --verify ]; do shift; done
    cp "$2" "$FOLDER/signature"
    cat > /dev/null
    echo '[GNUPG:] GOODSIG A A'
    ;;
*)
    cat > /dev/null
    printf -- '-----BEGIN PGP SIGNATURE-----\n\niQEz=\n-----END PGP SIGNATURE-----\n'
    printf '[GNUPG:] SIG_CREATED \n' >&2
    ;;
esac
END
chmod +x gpg

# record NAME ID: records the commit as git prints it.
record() {
    git rev-parse "$2^{commit}" > "$answers/$1.id"
    git cat-file commit "$2" > "$answers/$1.bytes"
    encoding=$(git show -s --format=%e "$2")
    git show -s --encoding="${encoding:-UTF-8}" --date=raw --format='format:%T%n%P%n%an <%ae> %ad%n%cn <%ce> %cd%n%e%n%B' "$2" > "$answers/$1.shown"
    if git cat-file commit "$2" | sed '/^$/q' | grep -q "^$field -----BEGIN"; then
        git verify-commit "$2" 2> "$FOLDER/errors" || true
        mv "$FOLDER/signature" "$answers/$1.signature"
    fi
}

# literal NAME: the commit whose content is standard input.
literal() {
    record "$1" "$(git hash-object -t commit -w --literally --stdin)"
}

# header NAME LINES: a root commit with these header lines and the message `title`.
header() {
    printf 'tree %s\nauthor A <a@b> 0 +0000\ncommitter A <a@b> 0 +0000\n%b\ntitle\n' "$tree" "$2" | literal "$1"
}

# actor NAME LINE: a root commit by this author.
actor() {
    printf 'tree %s\nauthor %b\ncommitter A <a@b> 0 +0000\n\ntitle\n' "$tree" "$2" | literal "$1"
}

for format in sha1 sha256; do
    answers=$FOLDER/$format.answers
    mkdir "$answers"
    git init -q --object-format=$format $format
    cd $format
    git config gpg.program "$FOLDER/gpg"
    tree=$(git hash-object -t tree -w /dev/null)
    if [ $format = sha1 ]; then field=gpgsig; else field=gpgsig-sha256; fi

    one=$(printf 'one\n' | git commit-tree $tree)
    two=$(printf 'two\n' | git commit-tree $tree -p $one)
    three=$(printf 'three\n\nbody\n' | git commit-tree $tree -p $one)
    record root $one
    record child $two
    record octopus "$(printf 'four\n' | git commit-tree $tree -p $one -p $two -p $three)"
    record signed "$(printf 'signed\n' | git commit-tree -S $tree -p $one)"
    git tag -s -m 'The third' v3 $three
    git checkout -q $two
    git merge -q --no-ff -m 'Merge' v3
    record mergetag HEAD
    git cat-file tag v3 > "$answers/v3.tag"

    if [ $format = sha1 ]; then
        git tag -s -m 'The other' v4 "$(printf 'other\n' | git commit-tree $tree -p $one)"
        git cat-file tag v4 > "$answers/v4.tag"
        git reset -q --hard $two
        git merge -q --no-ff -m 'Merge' v3 v4 > /dev/null
        record mergetags HEAD
        record empty-message "$(git commit-tree $tree < /dev/null)"
        record no-newline "$(printf 'no newline' | git commit-tree $tree -p $one)"
        record latin-1 "$(printf 'caf\351\n' | GIT_AUTHOR_NAME="$(printf 'J\344ger')" git -c i18n.commitEncoding=ISO-8859-1 commit-tree $tree)"
        record utf-8 "$(printf 'caf\303\251\n' | GIT_AUTHOR_NAME="$(printf 'J\303\244ger')" git commit-tree $tree)"
        printf 'tree %s\nauthor A <a@b> 0 +0000\ncommitter A <a@b> 0 +0000\n\n\n\ntitle\r\n\r\nbody' "$tree" | literal empty-first-line
        header one-line-signature 'gpgsig A\n'
        header both-signatures 'gpgsig A\n B\ngpgsig-sha256 C\n D\n'
        header several-headers 'x 1\ny 2\n 3\nx 4\n'
        header mercurial 'HG:rename-source hg\nHG:extra rebase_source:c1%3A\n'
        header empty-value 'x \ny\040\n z\n'
        header spaces 'x  \n  \n \n a\n'
        header encoding-and-signature 'encoding UTF-8\ngpgsig A\n B\nencoding x\n'
        actor not-utf-8 'J\0344ger <\0377@b> 0 +0000'
        actor no-name ' <a@b> 0 +0000'
        actor nobody ' <> 0 +0000'
        actor white-space 'A  B\t <a@b> 0 +0000'
        actor east 'A <a@b> 1234567890 +0545'
        actor west 'A <a@b> 4294967296 -0330'
        actor no-offset 'A <a@b> 1234567890 -0000'
        actor last-second 'A <a@b> 2147483647 +1400'
        actor zero-offset 'A <a@b> 1234567890 +0000'
        content='tree %s\nparent %s\nauthor A <a@b> 0 +0000\ncommitter A <a@b> 0 +0000\n\ntitle\n'
        printf "$content" $tree $one | literal lower-case
        printf "$content" $tree $(printf $one | tr a-f A-F) | literal upper-case
    fi
    cd ..
done
