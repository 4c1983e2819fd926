opadd file ground
opparm ground file examples/terrain/ground.obj
opadd file pyramid
opparm pyramid file examples/terrain/pyramid.obj
opadd merge site
opwire site 0 ground
opwire site 1 pyramid
opadd file hut
opparm hut file examples/terrain/hut.obj
opadd merge out
opwire out 31 site
opwire out 7 hut
