%schema
{"classes": [{"name": "van", "links": [{"name": "teams", "to": "team", "many": true, "inverse": "van"}]},
             {"name": "team", "links": [{"name": "van", "to": "van", "many": false, "inverse": "teams"}]}]}
%units
{"units": [{"name": "van", "class": "van"}, {"name": "red", "class": "team"}, {"name": "blue", "class": "team"}],
 "links": [["red", "van", "van"], ["blue", "van", "van"]]}
%sources
// The teams go home, one after another.
source go_home on team {
  when create team;
  rate 2;
  do { with team = it as team { delete team; } }
}

// The van is shared, so no team owns it. It counts its teams, and goes with the last.
source give_back on van {
  when unlink van.teams;
  rate 5;
  require {
    with van = it as van { if size(van.teams) = 0 { rate 5; } }
    decline;
  }
  do { with van = it as van { say "the last team is gone"; delete van; } }
}
