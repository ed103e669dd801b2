# retrigger: a job is worth 100 more once at most 10 are left to its due time, by the clock that the event is about.
locals 4
frame later Old:3 Old:1 Any Any
        Load 0; Alive later; Store 2
        Load 1; Alive later; Store 3
        Load 2; Get 10; Load 3; Get 4; Sub
        PushInt 10; Le; Unless later
        Load 2; Get 8; PushInt 100; Add; Rate
later:  Decline
