.KEEP_STATE:
all: b c
b c: a
a b c:
	: >$@
