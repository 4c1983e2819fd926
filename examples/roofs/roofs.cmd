# A house with one of three roofs. A variable says which: 0 has a tip, 1 is flat, 2 is a dome.
set folder = examples/roofs
set roof = 1

opadd file walls
opparm walls file $folder/walls.obj

# Quotes keep the blanks in a name. Nobody has built the dome yet: its file isn't there.
opadd file tip
opparm tip file "$folder/tip roof.obj"
opadd file flat
opparm flat file "${folder}/flat roof.obj"
opadd file dome
opparm dome file "$folder/dome.obj"

# Of a switch only the input that it takes is loaded and cooked.
opadd switch top
opparm top input $roof
opwire top 0 tip
opwire top 1 flat
opwire top 2 dome

opadd merge out
opwire out 0 walls
opwire out 1 top

echo "walls from $folder," roof ${roof} 'of 0 to 2 ($roof)'
