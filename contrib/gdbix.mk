# make -f contrib/gdbix.mk -j4 FROM=FOLDER TO=FOLDER [KIND=gdb8]
#
# Stores every file below FROM at the same place below TO, a folder outside of FROM, with its index, and those again that are newer than
# what is there. A file that is refused is named and passed over, by each call anew; what stops a run (docs/MANY.md) stops make. Names with
# spaces, as always with make, aren't taken.
KIND ?= gdb8

index_one := $(dir $(lastword $(MAKEFILE_LIST)))index-one
files := $(shell find $(FROM) -name '*.gdbix-part.*' -prune -o -type f -printf '%P\n')

.PHONY: all
all: $(files:%=$(TO)/%)

$(TO)/%: $(FROM)/%
	@$(index_one) --as $(KIND) $< $@
