# A crate, and one of half its size on top of it. The file has CR LF, and lines that say nothing here.
opadd file crate
opparm crate file examples/crate/crate.obj
opadd xform small
opparm small s "0.5 0.5 0.5" t "0 1 0"
opwire small 0 crate
opadd merge out
opwire out 0 crate
opwire out 1 small
