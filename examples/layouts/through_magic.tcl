# Reads a chip in Magic and writes it anew, in Magic's own spelling of the same shapes:
#
#   GDS=CHIP.gds OUT=NEW.gds magic -dnull -noconsole -rcfile /dev/null -T share/aqfp.tech \
#       examples/layouts/through_magic.tcl </dev/null
#
# What share/aqfp.tech has to set for that, and why, stands in its head. One more thing is chosen here: tiles of one
# type that touch are written as one polygon. Else Magic writes a rectangle for each tile, and `verify` takes both.
gds read $env(GDS)
load [lindex [cellname list topcells] 0]
gds merge yes
gds write $env(OUT)
quit -noprompt
