# Its makefile names no headers: state is kept, and the compiler reports them.
package=bzip2
header=bzlib_private.h
listed="blocksort.o bzip2 bzlib.o compress.o crctable.o decompress.o huffman.o libbz2.a randtable.o"
flags=CFLAGS=-O1
