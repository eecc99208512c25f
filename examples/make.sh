#!/bin/sh
# Makes the objects of this folder with git, in a new folder: `sh examples/make.sh FOLDER`.
# They are a blob, `hello` and a newline; a tree of six entries, one of each kind and a second file; a commit of this
# tree, and a tag of the commit. Prints of each the file, and the kind, the size and the id, as git has them:
#
#   hello.loose blob 6 ce013625030ba8dba906f756967f9e9ca394464a
#   tree.loose tree 204 932696bf4fc5904284abc872dd6ae7421b4e9e19
#   commit.loose commit 124 2b09c4737e7ae776810443d28ff15aaacfd1bfbf
#   tag.loose tag 116 0009ef8aeac91308dee7c2d17f4718361fae5abf
#   hello-sha256.loose blob 6 2cf8d83d9ee29543b34a87727421fdecb7e3f3a183d337639025de576db9ebb4
#   tree-sha256.loose tree 276 b50197883fb00da94cd610867bae1cb42a03a69c9058b0c225a8eeec98c95ba0
#   commit-sha256.loose commit 148 e4aa6687cfcffe18739323f0e6717f02235e94bc9eb7a83ac0b46a510819fb5d
#   tag-sha256.loose tag 140 da49275eeb470f018e41d0d56c9dc7e1c9e996f08b0093a2b2daf1d3e11d3148
#
# Tests of gixobj_tests_cli compare these with what the program prints, and both trees with `git ls-tree`.
set -e
out=$(cd "$(dirname "$0")" && pwd)
mkdir -p "$1"
cd "$1"
GIT_AUTHOR_NAME=A GIT_AUTHOR_EMAIL=a@b GIT_AUTHOR_DATE='1700000000 +0000'
GIT_COMMITTER_NAME=A GIT_COMMITTER_EMAIL=a@b GIT_COMMITTER_DATE='1700000000 +0000'
export GIT_AUTHOR_NAME GIT_AUTHOR_EMAIL GIT_AUTHOR_DATE
export GIT_COMMITTER_NAME GIT_COMMITTER_EMAIL GIT_COMMITTER_DATE

for format in sha1 sha256; do
    git init -q --object-format=$format $format
    cd $format
    printf 'hello\n' > hello.txt
    printf '#!/bin/sh\necho hello\n' > run.sh
    chmod +x run.sh
    mkdir docs
    printf 'read me\n' > docs/README
    printf 'all about it\n' > docs.txt
    ln -s hello.txt link
    git add .
    git update-index --add --cacheinfo "160000,$(git hash-object -t commit --stdin --literally < hello.txt),module"
    git commit -q -m 'Say hello'
    git tag -a v1.0 -m 'The first one'
    suffix=
    if [ $format = sha256 ]; then suffix=-sha256; fi
    for pair in hello=HEAD:hello.txt tree=HEAD^{tree} commit=HEAD tag=v1.0; do
        name=${pair%%=*} revision=${pair#*=}
        kind=$(git cat-file -t $revision)
        size=$(git cat-file -s $revision)
        { printf '%s %s\0' $kind $size; git cat-file $kind $revision; } > "$out/$name$suffix.loose"
        echo "$name$suffix.loose $kind $size $(git rev-parse $revision)"
    done
    cd ..
done
