# The makefiles that CMake writes, without state: between the first run and the second it writes the headers that it found into them,
# so that with state all is made anew once.
package=cmark
folder=build
header=../src/node.h
state=
prepare() { cmake -S . -B build; }
other_flags() { cmake -DCMAKE_C_FLAGS=-O1 -DCMAKE_CXX_FLAGS=-O1 . >"$work/log" 2>&1; }
