%schema
{"classes":[{"name":"desk","slots":[{"name":"rush","kind":"bool"}],
"links":[{"name":"lead","to":"lead","many":false,"inverse":"of"}]},
{"name":"lead","parent":"focus","links":[{"name":"of","to":"desk","many":false,"inverse":"lead"}]},
{"name":"story"},{"name":"photo"},{"name":"call"}],
"spaces":[{"name":"room","classes":["desk"],"dims":[]}]}
%units
{"units":[{"name":"desk","class":"desk"},{"name":"s1","class":"story"},{"name":"s2","class":"story"},
{"name":"p1","class":"photo"},{"name":"p2","class":"photo"},{"name":"call","class":"call"}],
"spaces":[["desk","room"]]}
%bundle
source ring call 200
when create call
do 424243010300000001000100000000000200020700050800010000000807000500000000010002000800091e000006012c0100080602050203012300042d00022e

source steer desk 150
when update desk.rush
do 42424301030001000570686f746f00000002001207000106000100000015070001000000000000160500200015060105011b00042b001222000206020502020000230001050201000000000000001e230002050105022400052a001505011c00050015282e

source write story 50
when create story
do 42424301010001000577726974650000000000000004020000050029022e

source crop photo 40
when create photo
do 42424301030001000463726f700001000100000000000200050700040800010000000b07000400000000010005000b000c020000050029021e000006012c01000b0602050203002300042d00052e
