#!/bin/bash
# Runs `word_rows` on each file of cases/words, and on texts that it has to refuse. cases/words/README.md has the language of rows.
# The last line is 'N passed, M failed'.
set -u -o pipefail
cd "$(dirname "$0")/.." || exit 2
program=(crates/word_rows/out/word_rows)
. scripts/row_program.sh

add_rows cases/words
refuses 'another answer' $'row r\nwords a > 2\n'
refuses 'a call that is not known' $'row r\nwordy a > 1\n'
refuses 'a call with an argument too many' $'row r\nstrip a b > a\n'
refuses 'a call with an argument too few' $'row r\nsubst a b > nothing\n'
refuses 'another name of a depfile' $'row r\ndepfile a:\\20b > a\n'
refuses 'another sign of a definition' $'row r\nvariables a:=b > a = b\n'
refuses 'bytes of one digit' $'row r\nstrip \\0 > a\n'
refuses 'another value of a text' $'row r\nfile a = x\nexpand $a > a\n'
refuses 'a setup that is not known' $'row r\nnode a:\nstrip a > a\n'
refuses 'a variable of no flavor' $'row r\nfile a x\nstrip a > a\n'
refuses 'an answer without a question' $'row r\nshell a b\nstrip a > a\n'
refuses 'a text behind a variable' $'row r\nfile a = x y\nstrip a > a\n'
tell_counts
