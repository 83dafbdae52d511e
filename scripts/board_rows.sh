#!/bin/bash
# Runs `call_rows board` on each file of cases/board, and on random lists of calls; and on texts that it has to refuse.
# cases/board/README.md has the language of rows. The last line is 'N passed, M failed'.
set -u -o pipefail
cd "$(dirname "$0")/.." || exit 2
program=(crates/call_rows/out/call_rows board)
. scripts/row_program.sh

add_rows cases/board
add python3 scripts/random_boards.py
refuses 'an empty text' ''
refuses 'no rows' '// nothing'
refuses 'a row without calls' $'row r\nnode a:\n'
refuses 'a call without an answer' $'row r\nnode a:\nclaim > a\nclaim\n'
refuses 'another answer' $'row r\nnode a:\nclaim > none\n'
refuses 'a call that is not known' $'row r\nnode a:\nclaims > a\n'
refuses 'a call without a name' $'row r\nnode a:\n > \n'
refuses 'a line of a setup that is not known' $'row r\nnodes a:\nclaim > none\n'
refuses 'a line of a setup behind a call' $'row r\nnode a:\nclaim > a\nnode b:\n'
refuses 'a number that is none' $'row r\nchain x\nempty > 0\n'
refuses 'an end that is not known' $'row r\nnode a:\nsettle a made > refused\n'
refuses 'a node that is not known' $'row r\nnode a: b\nclaim > a\n'
refuses 'two nodes of one name' $'row r\nnode a:\nnode b:\nnode a:\nclaim > a\n' $':1: the setup of this row\n    NamedAlike\n'
refuses 'nodes whose targets are all empty' $'row r\nlong 0\nnode a:\nnode b:\nclaim > a\n' NamedAlike
refuses 'a line before the first row' $'node a:\n'
tell_counts
