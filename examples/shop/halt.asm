# do: the machine of the order stands still from now on.
locals 2
frame end Old:4 Any
        Load 0; Alive end; One 12 end; Store 1
        Load 1; PushBool false; Set 5
end:    Done
