opadd file out
opparm out file examples/numerals/tent.obj
