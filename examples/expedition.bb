%schema
{
  "labels": [{"name": "state", "values": ["open", "done"]}],
  "classes": [
    {"name": "plan", "slots": [{"name": "goal", "kind": "text"}, {"name": "phase", "kind": "text"}],
     "links": [{"name": "tasks", "to": "task", "many": true, "inverse": "plan"}]},
    {"name": "task",
     "slots": [{"name": "name", "kind": "text"}, {"name": "effort", "kind": "int", "default": 1},
               {"name": "state", "kind": "label", "of": "state"}],
     "links": [{"name": "plan", "to": "plan", "many": false, "inverse": "tasks"},
               {"name": "parts", "to": "task", "many": true, "inverse": "whole"},
               {"name": "whole", "to": "task", "many": false, "inverse": "parts"}]},
    {"name": "scouting", "parent": "task"},
    {"name": "hauling", "parent": "task"},
    {"name": "building", "parent": "task"},
    {"name": "emphasis", "parent": "focus", "slots": [{"name": "reason", "kind": "text"}]}
  ],
  "spaces": [
    {"name": "todo", "classes": ["task"],
     "dims": [{"name": "effort", "kind": "ordered"}, {"name": "state", "kind": "label", "of": "state"}]},
    {"name": "control", "classes": ["emphasis"], "dims": []}
  ]
}
%units
{
  "units": [
    {"name": "hut", "class": "plan", "slots": {"goal": "a hut at the pass"}},
    {"name": "walls", "class": "building", "slots": {"name": "walls", "effort": 2}},
    {"name": "roof", "class": "building", "slots": {"name": "roof", "effort": 4}},
    {"name": "beams", "class": "hauling", "slots": {"name": "beams", "effort": 9}},
    {"name": "tools", "class": "hauling", "slots": {"name": "tools", "effort": 3}},
    {"name": "ford", "class": "scouting", "slots": {"name": "the ford", "effort": 1}},
    {"name": "ridge", "class": "scouting", "slots": {"name": "the ridge", "effort": 2}}
  ],
  "links": [
    ["hut", "tasks", "walls"], ["hut", "tasks", "roof"], ["hut", "tasks", "beams"],
    ["hut", "tasks", "tools"], ["hut", "tasks", "ford"], ["hut", "tasks", "ridge"]
  ],
  "spaces": [["walls", "todo"], ["roof", "todo"], ["beams", "todo"], ["tools", "todo"], ["ford", "todo"], ["ridge", "todo"]]
}
%sources
// An expedition builds a hut. All work is rated alike: by how little effort it takes. What is done first is decided by
// foci, which a strategy posts and withdraws: a focus on a class weighs what waits of the sources of that class.

source scout on scouting {
  when enter scouting todo;
  rate 0;
  require {
    with task = it as scouting { rate 100 - task.effort; }
    decline;
  }
  do {
    with task = it as scouting {
      say "seen:", task.name;
      leave task todo;
      set task.state = state:done;
    }
  }
}

source haul on hauling {
  when enter hauling todo;
  rate 0;
  require {
    with task = it as hauling { rate 100 - task.effort; }
    decline;
  }
  // Whoever cuts a load in two sets its effort, and puts it back: as a whole it is no longer carried.
  obviate on hauling when update hauling.effort; { answer it = ev; }
  do {
    with task = it as hauling {
      say "carried:", task.name, task.effort;
      leave task todo;
      set task.state = state:done;
    }
  }
}

source build on building {
  when enter building todo;
  rate 0;
  require {
    with task = it as building { rate 100 - task.effort; }
    decline;
  }
  do {
    with task = it as building {
      say "built:", task.name;
      leave task todo;
      set task.state = state:done;
    }
  }
}

// Cuts a hauling task of more than five hours in two, as soon as there is one.
source divide on hauling {
  when enter hauling todo;
  rate 800;
  require {
    with load = it as hauling { if 5 < load.effort { rate 800; } }
    decline;
  }
  do {
    with load = it as hauling {
      let half = load.effort / 2;
      new part: hauling;
      set part.name = load.name;
      set part.effort = load.effort - half;
      link part.whole load;
      with plan = load.plan { link part.plan plan; }
      enter part todo;
      set load.effort = half;
      leave load todo;
      enter load todo;
    }
  }
}

// The strategy: first scouting, then hauling, then building. It goes on when nothing is left to do of a phase.
source begin on plan {
  when create plan;
  rate 1000;
  do {
    with plan = it as plan {
      say "goal:", plan.goal;
      set plan.phase = "scouting";
    }
  }
}

source go_on on task {
  when update task.state;
  rate 600;
  require {
    with task = it as task {
      with plan = task.plan {
        if plan.phase = "scouting" and size(find scouting in todo) = 0 { rate 600; }
        if plan.phase = "hauling" and size(find hauling in todo) = 0 { rate 600; }
      }
    }
    decline;
  }
  do {
    with task = it as task {
      with plan = task.plan {
        if 0 < size(find hauling in todo) { set plan.phase = "hauling"; } else { set plan.phase = "building"; }
      }
    }
  }
}

// Each phase has one focus, on the class of its tasks: the one before it is withdrawn.
source emphasize on plan {
  when update plan.phase;
  rate 1000;
  do {
    for old in find emphasis in control {
      if old.reason = "phase" { delete old; }
    }
    with plan = it as plan {
      new now: emphasis;
      set now.area = plan.phase;
      set now.weight = 50;
      set now.reason = "phase";
      enter now control;
    }
  }
}

// From the ford one sees rain coming: a heavy focus on what is to be carried over it, whatever the phase. It is withdrawn
// as soon as all was carried.
source weather on scouting {
  when update scouting.state;
  rate 700;
  require {
    with place = it as scouting { if place.name = "the ford" { rate 700; } }
    decline;
  }
  do {
    new now: emphasis;
    set now.area = "hauling";
    set now.weight = 200;
    set now.reason = "rain";
    enter now control;
    say "rain is coming: carry first";
  }
}

source clear on hauling {
  when update hauling.state;
  rate 650;
  require {
    if size(find hauling in todo) = 0 { rate 650; }
    decline;
  }
  do {
    for old in find emphasis in control {
      if old.reason = "rain" { delete old; }
    }
    say "all is across";
  }
}

// Tells what the plan came to, when nothing is left to do.
source report on focus {
  when quiescence;
  rate 1;
  require {
    if size(find emphasis in control) = 0 { decline; }
    rate 1;
  }
  do {
    say "tasks left:", size(find task in todo);
    for old in find emphasis in control {
      say "withdrawn:", old.reason, old.weight;
      delete old;
    }
  }
}
