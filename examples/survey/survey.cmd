# A pond as a survey has it: points with colours, faces that count back, and its shore as a line.
opadd file pond
opparm pond file examples/survey/survey.obj
opadd attribcreate titled
opparm titled class detail name title kind string value 'The "old" pond'
opwire titled 0 pond
opadd enumerate out
opparm out class prim name id
opwire out 0 titled
