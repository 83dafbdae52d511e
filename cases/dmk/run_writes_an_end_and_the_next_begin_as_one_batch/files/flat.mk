.KEEP_STATE:
all: a b c
a b c:
	: >$@
