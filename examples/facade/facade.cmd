# A facade of a wall of 12 rows and 13 columns of faces, row by row from the foot. Its parts are groups that patterns
# name: openings are cut out, panes stand behind them, and the wall gets relief and colours.
opadd file wall
opparm wall file examples/facade/wall.obj

# Faces. Windows are the first 2 of each 3, from the second of a row on; under the roof every second one.
opadd groupcreate floors
opparm floors class prim name windows group "53-63:2,3 66-76:2,3 92-102:2,3 105-115:2,3"
opwire floors 0 wall
opadd groupcreate attic
opparm attic class prim name windows group 131-141:2 op union
opwire attic 0 floors

# One window was walled up.
opadd groupcreate blind
opparm blind class prim name blind group "95-96 108-109"
opwire blind 0 attic
opadd groupcreate windows
opparm windows class prim name windows group blind op subtract
opwire windows 0 blind

# Of each row of 13 from face 14, and from face 21, the first 4; and a door, three faces high.
opadd groupcreate shop
opparm shop class prim name shop group "14-30:4,13 21-37:4,13"
opwire shop 0 windows
opadd groupcreate door
opparm door class prim name door group 6-32:13
opwire door 0 shop

# Where somebody is at home.
opadd groupcreate home
opparm home class prim name lit group windows
opwire home 0 door
opadd groupcreate lit
opparm lit class prim name lit group "0-155:2,5" op intersect
opwire lit 0 home
opadd enumerate numbers
opparm numbers class prim name window group windows
opwire numbers 0 lit

# Points. Rows of 14: the first is the plinth, the last the cornice; of each row over the door two make a bay.
opadd groupcreate plinth
opparm plinth name plinth group 0-13
opwire plinth 0 numbers
opadd groupcreate cornice
opparm cornice name cornice group 168-181
opwire cornice 0 plinth
opadd groupcreate bay
opparm bay name bay group 62-133:2,14
opwire bay 0 cornice

opadd xform foot
opparm foot group plinth t "0 0 0.25"
opwire foot 0 bay
opadd xform top
opparm top group cornice t "0 0 0.5"
opwire top 0 foot
opadd xform relief
opparm relief group bay t "0 0 1"
opwire relief 0 top

opadd attribcreate plaster
opparm plaster name Cd kind vector value "0.85 0.8 0.7"
opwire plaster 0 relief
opadd attribcreate stone
opparm stone name Cd kind vector value "0.5 0.5 0.5" group "plinth c*"
opwire stone 0 plaster

# The wall without its openings, and the panes alone, a bit behind it.
opadd blast openings
opparm openings group "windows shop door"
opwire openings 0 stone
opadd blast panes
opparm panes group "windows shop" negate 1
opwire panes 0 stone
opadd attribcreate glass
opparm glass name Cd kind vector value "0.55 0.7 0.85"
opwire glass 0 panes
opadd xform behind
opparm behind t "0 0 -0.25"
opwire behind 0 glass

opadd merge out
opwire out 0 openings
opwire out 1 behind
