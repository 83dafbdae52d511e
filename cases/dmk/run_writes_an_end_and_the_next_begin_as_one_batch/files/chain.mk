.KEEP_STATE:
c: b
b: a
a b c:
	: >$@
