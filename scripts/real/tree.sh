package=tree
header=tree.h
flags=CFLAGS=-O1
