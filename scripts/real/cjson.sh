package=cjson
folder=build
header=../cJSON.h
state=
prepare() { cmake -S . -B build; }
other_flags() { cmake -DCMAKE_C_FLAGS=-O1 . >"$work/log" 2>&1; }
