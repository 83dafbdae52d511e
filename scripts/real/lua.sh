# Its makefile calls $(MAKE) in its own folder, over which two runs can't keep one state: it is built without. So changed flags
# aren't seen, as by other makes.
package=lua5.4
goals=linux
header=src/lobject.h
flags=unseen
state=
