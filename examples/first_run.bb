%schema
{"classes":[{"name":"note"}]}
%units
{"units":[{"name":"a","class":"note"}]}
%bundle
source hail note 100
when create note
do 42424301010001000568656c6c6f000000000000000302000029012e
