# Chips by GNU make. In a Makefile of one's own:
#
#   AQFP_LIB = mine.toml              # the library; b.toml of this folder if not given
#   AQFP_MAKES = build                # the command that makes chips; compact if not given, draw for netlists of cells
#   include /usr/share/aqfp/aqfp.mk
#   all: adder.gds adder.printed adder.equal
#
# From adder.blif and, for adder.printed, adder.words: adder.gds is the chip, adder.printed what `verify` prints of it,
# adder.equal the word of `equal`, adder.extracted.blif the circuit of its shapes, adder.vcd its waveform for the words,
# and adder.gtkw what GTKWave opens on (gtkwave adder.vcd adder.gtkw).
# A chip that is not equal to its netlist fails. What a command that failed has begun is deleted. A chip is made anew
# where its netlist, the text of its library, or AQFP, AQFP_MAKES or AQFP_LIB have changed: adder.gds.made has these
# three, also where they are set for one chip alone (adder.gds: AQFP_MAKES = compact).
# AQFP is one word, the name of the program. Words may hold blanks and other bytes; only in the names of chips make
# takes no blanks. Where the path of this file has blanks, name its folder before: AQFP_SHARE = /my tools/share/
.DELETE_ON_ERROR:
.PRECIOUS: %.gds %.gds.made %.extracted.blif %.trace

AQFP ?= aqfp
AQFP_MAKES ?= compact
AQFP_SHARE ?= $(dir $(lastword $(MAKEFILE_LIST)))
aqfp_empty :=
aqfp_blank := $(aqfp_empty) $(aqfp_empty)
aqfp_path = $(subst $(aqfp_blank),\ ,$(1))
aqfp_word = '$(subst ','\'',$(1))'
aqfp_there = $(wildcard $(call aqfp_path,$(AQFP_SHARE)$(1)))
aqfp_found = $(firstword $(foreach each,b.toml ../libraries/b.toml,$(if $(call aqfp_there,$(each)),$(each))))
AQFP_LIB ?= $(AQFP_SHARE)$(aqfp_found)
aqfp_library = $(call aqfp_word,$(AQFP_LIB))
aqfp_program = $(call aqfp_word,$(AQFP))

.PHONY: aqfp_look
aqfp_look:
# (it is no goal of its own: the first target of the Makefile that includes this stays the one that `make` makes)
ifeq ($(.DEFAULT_GOAL),aqfp_look)
.DEFAULT_GOAL :=
endif

%.gds.made: aqfp_look
	@printf '%s\n' $(aqfp_program) $(call aqfp_word,$(AQFP_MAKES)) $(aqfp_library) | cmp -s - $(call aqfp_word,$@) || \
	    printf '%s\n' $(aqfp_program) $(call aqfp_word,$(AQFP_MAKES)) $(aqfp_library) > $(call aqfp_word,$@)

%.gds: %.blif $(call aqfp_path,$(AQFP_LIB)) %.gds.made
	$(aqfp_program) $(call aqfp_word,$(AQFP_MAKES)) $(call aqfp_word,$<) $(aqfp_library) $(call aqfp_word,$@)

%.printed: %.gds %.words $(call aqfp_path,$(AQFP_LIB))
	$(aqfp_program) verify $(call aqfp_word,$<) $(aqfp_library) $(call aqfp_word,$*.words) > $(call aqfp_word,$@)

%.equal: %.gds %.blif $(call aqfp_path,$(AQFP_LIB))
	$(aqfp_program) equal $(call aqfp_word,$<) $(aqfp_library) $(call aqfp_word,$*.blif) > $(call aqfp_word,$@)
	grep -qx equal $(call aqfp_word,$@)

%.extracted.blif: %.gds $(call aqfp_path,$(AQFP_LIB))
	$(aqfp_program) netlist $(call aqfp_word,$<) $(aqfp_library) $(call aqfp_word,$@)

%.trace: %.gds %.words $(call aqfp_path,$(AQFP_LIB))
	$(aqfp_program) trace $(call aqfp_word,$<) $(aqfp_library) $(call aqfp_word,$*.words) > $(call aqfp_word,$@)

%.vcd %.gtkw: %.trace %.extracted.blif %.blif
	python3 $(call aqfp_word,$(AQFP_SHARE)vcd.py) --circuit $(call aqfp_word,$*.extracted.blif) \
	    --net $(call aqfp_word,$*.blif) --gtkw $(call aqfp_word,$*.gtkw) < $(call aqfp_word,$<) > $(call aqfp_word,$*.vcd)
