#!/bin/sh
# Makes tags of many shapes with git, in two repositories in a new folder: `sh examples/tags.sh FOLDER`.
# Records each in FOLDER/FORMAT.answers, as git prints it:
# - NAME.bytes (`git cat-file tag`), NAME.id (`git hash-object -t tag --stdin`)
# - NAME.type (`git cat-file -t` and `-s`)
# - NAME.shown (`git for-each-ref`): target, kind, name and tagger's line, each on a line, and the content
# - NAME.tagger (`git for-each-ref`): name, email and time, each on a line
# - NAME.signature (`git for-each-ref`)
# The table crates/gixobj_tests_replay_messages/data/git-tags.tsv has these answers.
set -e
unset GIT_DIR GIT_WORK_TREE
export GIT_CONFIG_GLOBAL=/dev/null GIT_CONFIG_NOSYSTEM=1
export GIT_AUTHOR_NAME='A U Thor' GIT_AUTHOR_EMAIL=author@example.com GIT_AUTHOR_DATE='1700000000 +0100'
export GIT_COMMITTER_NAME='C O Mitter' GIT_COMMITTER_EMAIL=c@example.com GIT_COMMITTER_DATE='1700000001 -0730'
mkdir -p "$1"
cd "$1"
FOLDER=$PWD

# program NAME MARKER: makes a stand-in for gpg or gpgsm, which signs with lines between markers.
program() {
    cat > "$1" <<END
#!/bin/sh
cat > /dev/null
printf -- '-----BEGIN $2-----\n\niQEz=\n-----END $2-----\n'
printf '[GNUPG:] SIG_CREATED \n' >&2
END
    chmod +x "$1"
}
program gpg 'PGP SIGNATURE'
program gpg-message 'PGP MESSAGE'
program gpgsm 'SIGNED MESSAGE'

# A stand-in for ssh-keygen, which writes the signature next to the file that it signs.
cat > ssh-keygen <<'END'
#!/bin/sh
for file; do :; done
printf -- '-----BEGIN SSH SIGNATURE-----\nU1NIU0lH\n-----END SSH SIGNATURE-----\n' > "$file.sig"
END
chmod +x ssh-keygen

# field FORMAT: what git prints of the recorded tag, without the last newline.
field() {
    git for-each-ref --format="$1" refs/recorded/tag | LC_ALL=C awk 'NR > 1 { printf "\n" } { printf "%s", $0 }'
}

# record NAME ID: records the tag as git prints it.
record() {
    git update-ref refs/recorded/tag "$2"
    git cat-file tag "$2" > "$answers/$1.bytes"
    git hash-object -t tag --literally --stdin < "$answers/$1.bytes" > "$answers/$1.id"
    { git cat-file -t "$2"; git cat-file -s "$2"; } > "$answers/$1.type"
    field '%(object)%0a%(type)%0a%(tag)%0a%(tagger)%0a%(contents)' > "$answers/$1.shown"
    field '%(taggername)%0a%(taggeremail)%0a%(taggerdate:raw)' > "$answers/$1.tagger"
    field '%(contents:signature)' > "$answers/$1.signature"
}

# tag NAME TAG ARGUMENTS: the tag TAG that `git tag` makes.
tag() {
    shape=$1 tag=$2
    shift 2
    git tag "$@" "$tag" $commit
    record "$shape" "refs/tags/$tag"
}

# target NAME ID: a tag of this object.
target() {
    git tag -a -m 'Of another kind' "$1" "$2"
    record "$1" "refs/tags/$1"
}

# verbatim NAME TAG MESSAGE ARGUMENTS: the tag TAG with exactly this message.
verbatim() {
    shape=$1 tag=$2 message=$3
    shift 3
    printf -- "$message" | git tag --cleanup=verbatim -F - "$@" "$tag" $commit > "$FOLDER/errors"
    record "$shape" "refs/tags/$tag"
}

# literal NAME: the tag whose content is standard input.
literal() {
    cat > "$FOLDER/content"
    id=$(git mktag --no-strict < "$FOLDER/content" 2> "$FOLDER/errors") ||
        id=$(git hash-object -t tag -w --literally --stdin < "$FOLDER/content")
    record "$1" $id
}

# body NAME BYTES: a tag without tagger, with these bytes after the line of its name.
body() {
    printf "object $tree\ntype tree\ntag v1\n$2" | literal "$1"
}

# tagger NAME LINE: a tag by this tagger.
tagger() {
    body "$1" "tagger $2\n\ntitle\n"
}

for format in sha1 sha256; do
    answers=$FOLDER/$format.answers
    mkdir "$answers"
    git init -q --object-format=$format $format
    cd $format
    git config gpg.program "$FOLDER/gpg"
    git config gpg.x509.program "$FOLDER/gpgsm"
    git config gpg.ssh.program "$FOLDER/ssh-keygen"
    git config user.signingKey key
    git config advice.nestedTag false
    tree=$(git hash-object -t tree -w /dev/null)
    blob=$(printf 'hello\n' | git hash-object -w --stdin)
    commit=$(printf 'one\n' | git commit-tree $tree)

    tag annotated v1.0 -a -m 'The first'
    verbatim several-lines v1.1 'title\n\nbody\n  more\n\n# no comment\n' -a
    target of-tree $tree
    target of-tag v1.0
    tag signed v2.0 -s -m 'The second'
    git config gpg.format ssh
    tag signed-with-ssh v2.1 -s -m 'The third'
    git config gpg.format openpgp
    body no-tagger '\ntitle\n'
    body no-body ''

    if [ $format = sha1 ]; then
        target of-blob $blob
        tag slashes release/2023/v1.0 -a -m 'Deep'
        tag punctuation '@=1,2+3%4&(5)!.x' -a -m 'Odd'
        export GIT_COMMITTER_NAME="$(printf 'J\303\244ger')"
        tag utf-8 "$(printf 'gr\303\266\303\237e/\342\234\223')" -a -m "$(printf 'caf\303\251')"
        export GIT_COMMITTER_NAME="$(printf 'J\344ger')"
        tag latin-1 "$(printf 'gr\366\337e')" -a -m "$(printf 'caf\351')"
        export GIT_COMMITTER_NAME='C O Mitter'
        tag empty-message v1.2 -a -m ''
        verbatim newlines v1.3 '\n\n\n' -a
        verbatim no-newline v1.4 'no newline' -a
        verbatim white-space v1.5 '\n\n \t\r\ntitle \r\n\r\nbody\t\n\n' -a
        verbatim marker-in-a-line v1.6 'x -----BEGIN PGP SIGNATURE-----\n -----BEGIN SSH SIGNATURE-----\n' -a
        verbatim cut-marker v1.7 'x\n-----BEGIN PGP SIGNATURE----\n-----END PGP SIGNATURE-----\n' -a

        git config gpg.program "$FOLDER/gpg-message"
        tag signed-message v2.2 -s -m 'The fourth'
        git config gpg.program "$FOLDER/gpg"
        git config gpg.format x509
        tag signed-with-x509 v2.3 -s -m 'The fifth'
        git config gpg.format ssh
        verbatim signed-twice v2.0-ssh "$(git cat-file tag v2.0 | sed '1,/^$/d')\n" -s
        git config gpg.format openpgp
        verbatim signed-with-returns v2.4 'title\r\n\r\nbody\r\n' -s
        verbatim signed-without-newline v2.5 'no newline' -s
        tag signed-behind-one-newline v2.6 -s -m ''
        verbatim signed-behind-two-newlines v2.6 '\n' -s -f
        verbatim signed-behind-three-newlines v2.6 '\n\n' -s -f
        verbatim marker-in-the-message v2.7 'title\n-----BEGIN PGP SIGNATURE-----\nand more\n' -a
        verbatim markers v2.8 'title\n-----BEGIN SIGNED MESSAGE-----\n-----BEGIN PGP MESSAGE-----x\n-----BEGIN SSH SIGNATURE-----' -a
        verbatim marker-alone v2.9 '-----BEGIN SSH SIGNATURE-----' -a
        body signed-without-tagger '\ntitle\n-----BEGIN PGP SIGNATURE-----\n\niQEz=\n-----END PGP SIGNATURE-----\n'

        body one-newline '\n'
        body four-newlines '\n\n\n\n'
        body late-tagger '\ntagger A <a@b> 0 +0000\n'
        body no-body-behind-tagger 'tagger A <a@b> 0 +0000\n'
        tagger plain 'A <a@b> 0 +0000'
        tagger east 'A <a@b> 1234567890 +0545'
        tagger west 'A <a@b> 4294967296 -0330'
        tagger zero-offset 'A <a@b> 1234567890 +0000'
        tagger no-offset 'A <a@b> 1234567890 -0000'
        tagger nobody ' <> 0 +0000'
        tagger empty-name ' <a@b> 0 +0000'
        tagger no-name '<a@b> 0 +0000'
        tagger spaces ' A  B\t  < a@b > 0 +0000'
        tagger late-time 'A <a@b>  0 +0000'
        tagger no-time 'A <a@b>'
        tagger time-and-more 'A <a@b> 0 +0000 x'
        tree=$(printf $tree | tr a-f A-F)
        body upper-case '\ntitle\n'
    fi
    cd ..
done
