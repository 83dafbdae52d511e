all: $(IN)x $(IN)y $(IN)z
$(IN)x $(IN)y $(IN)z:
	sh count $@
