opadd file walls
opparm walls file examples/merge/a.obj
opadd file roof
opparm roof file examples/merge/b.obj
opadd merge out
opwire out 0 walls
opwire out 1 roof
