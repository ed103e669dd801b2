%schema
{"classes":[{"name":"note","slots":[{"name":"score","kind":"int"}]},{"name":"start"}],
"spaces":[{"name":"board","classes":["note"],"dims":[{"name":"score","kind":"ordered"}]}]}
%units
{"units":[{"name":"a","class":"note","slots":{"score":3}},{"name":"b","class":"note","slots":{"score":8}},
{"name":"c","class":"note","slots":{"score":5}},{"name":"d","class":"start"}],
"spaces":[["a","board"],["b","board"],["c","board"]]}
%bundle
source lift start 10
when create start
do 42424301030000000100010000010004000000020005070002080001000000120700020000000001000500120013010000000000000000010000000000000005181e000006012c0100120602050205021b000401000000000000000a08230004050205021b000429022d00052e
