# Two triangles. The second file has a blank in its name.
set folder = examples/first
opadd file left
opparm left file $folder/left.obj
opadd file right
opparm right file "$folder/right side.obj"
opadd merge out
opwire out 0 left
opwire out 1 right
echo "merged two files of $folder"
