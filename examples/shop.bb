%schema
{"classes":[{"name":"clock","slots":[{"name":"now","kind":"int"}]},
{"name":"machine","slots":[{"name":"up","kind":"bool","default":true}],
"links":[{"name":"jobs","to":"job","many":true,"inverse":"on"},{"name":"orders","to":"order","many":true,"inverse":"of"}]},
{"name":"job","slots":[{"name":"worth","kind":"int"},{"name":"length","kind":"int"},{"name":"due","kind":"int"}],
"links":[{"name":"on","to":"machine","many":false,"inverse":"jobs"}]},
{"name":"order","links":[{"name":"of","to":"machine","many":false,"inverse":"orders"}]}],
"spaces":[{"name":"shop","classes":["clock"],"dims":[]}]}
%units
{"units":[{"name":"clock","class":"clock"},{"name":"lathe","class":"machine"},{"name":"mill","class":"machine"},
{"name":"a","class":"job","slots":{"worth":30,"length":4,"due":30}},
{"name":"b","class":"job","slots":{"worth":20,"length":5,"due":25}},
{"name":"c","class":"job","slots":{"worth":10,"length":3,"due":12}},
{"name":"d","class":"job","slots":{"worth":25,"length":2,"due":40}},{"name":"stop","class":"order"}],
"links":[["a","on","lathe"],["b","on","lathe"],["c","on","lathe"],["d","on","mill"],["stop","of","mill"]],
"spaces":[["clock","shop"]]}
%bundle
source work job 0
when create job
require 424243010200000000000100060700030000000000070500200006060105011b00082f30
obviate machine 4242430103000000000001000c07000307000200000000000e050020000c1c000b000c0602050205011405021b0005151631030031
when update machine.up
retrigger clock 4242430104000000000001001307000307000100000000000014050020001306020501200013060305021b000a05031b00040901000000000000000a102b001305021b0008010000000000000064082f30
when update clock.now
do 4242430105000000010001000000000002000b0700030600030600020800010000001507000300000000000001000b001500160500200015060105011c000b001506020501050229021e000006032c0300150604050405041b000405011b0009082300042d000b2e

source halt order 50
when create order
do 4242430102000000000001000707000400000000000805002000071c000c00070601050103002300052e
