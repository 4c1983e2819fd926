# A field of six plots and a hut on it, without any file.
opadd grid ground
opparm ground rows 3 cols 4 sizex 6 sizez 2
opadd xform raised
opparm raised t "0 0.25 0" s "1 1 2"
opwire raised 0 ground
opadd enumerate plots
opparm plots class prim name plot
opwire plots 0 raised
opadd attribcreate green
opparm green name Cd kind vector value "0.2 0.6 0.1"
opwire green 0 plots
opadd box hut
opparm hut size "1 1.5 1" center "0 1 0"
opadd merge out
opwire out 0 green
opwire out 1 hut
