# obviate: the work on a job is needless if the machine that the event is about is the job's, and stands still.
locals 3
frame other Old:3 Old:2 Any
        Load 0; Alive other; One 11 other; Store 2
        Load 2; Load 1; EqUnit
        Load 2; Get 5; Not
        And; Answer
other:  PushBool false; Answer
