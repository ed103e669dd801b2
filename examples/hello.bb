%schema
{"classes":[{"name":"note"}]}
%units
{"units":[{"name":"a","class":"note"}]}
%sources
source hail on note {
  when create note;
  rate 100;
  do { say "hello"; }
}
