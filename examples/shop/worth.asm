# require: a job is rated by its worth.
locals 2
frame gone Old:3 Any
        Load 0; Alive gone; Store 1
        Load 1; Get 8; Rate
gone:   Decline
