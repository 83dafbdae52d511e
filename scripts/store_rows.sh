#!/bin/bash
# Runs `call_rows store` on each file of cases/store, and on texts that it has to refuse.
# cases/store/README.md has the language of rows. The last line is 'N passed, M failed'.
set -u -o pipefail
cd "$(dirname "$0")/.." || exit 2
program=(crates/call_rows/out/call_rows store)
. scripts/row_program.sh

add_rows cases/store
refuses 'an empty text' ''
refuses 'no rows' '// nothing'
refuses 'a row without calls' $'row r\nA 7\n'
refuses 'a call without an answer' $'row r\nstore open > ok\nstore names\n'
refuses 'another answer' $'row r\nreplay begun a > begun b;\n'
refuses 'an answer that goes on' $'row r\nreplay begun a > begun a;begun b;\n'
refuses 'a call that is not known' $'row r\nreplays begun a > begun a;\n'
refuses 'a call of a store that is not known' $'row r\nstore open > ok\nstore name > 0\n'
refuses 'a call without a name' $'row r\n > \n'
refuses 'a store that is not open' $'row r\nstore names > 0\n'
refuses 'a line of a setup that is not known' $'row r\nC 7\nstore open > ok\n'
refuses 'a line of a setup behind a call' $'row r\nstore open > ok\nA 7\n'
refuses 'a setup of two words' $'row r\nA 7 7\nstore open > ok\n'
refuses 'a number that is none' $'row r\nstop x\nstore open > ok\n'
refuses 'bytes of one digit' $'row r\nA \\0\nstore open > ok\n'
refuses 'a repetition that is not closed' $'row r\nA {2*a\nstore open > NotState(A)\n'
refuses 'a record that is not known' $'row r\nreplay began a > begun a;\n'
refuses 'a failed record without a status' $'row r\nreplay failed a > failed a;\n'
refuses 'a record that no batch may hold' $'row r\nstore open > ok\nstore commit kept done a > ok\n'
refuses 'a beginning of bytes that are not there' $'row r\neach 0 3 decode 1 a > Short\n'
refuses 'a call of a disk that is not known' $'row r\ndisk stop 1 abc Ax > +\n'
refuses 'a place of a disk that is no number' $'row r\ndisk stop 1 abc Arx > !\n'
refuses 'a side of a disk that is not known' $'row r\ndisk stop 0 abc Cl > ! 100 abc\n'
refuses 'a folder that is not known' $'row r\nfolder here 1 Al > 6 findA lenA\n'
refuses 'a line before the first row' $'A 7\n'
tell_counts
