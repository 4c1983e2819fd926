opadd file s
opparm s file examples/letters/s.obj
opadd file o
opparm o file examples/letters/o.obj
opadd file p
opparm p file examples/letters/p.obj
opadd merge out
opwire out 0 s
opwire out 1 o
opwire out 2 p
