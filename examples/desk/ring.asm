# do: each desk in the room is in a rush from now on.
locals 3
query 1 0 where all
frame next Old:5 Seq:1 Any
frame end Old:5 Any Any
loop next-end
        Find 0; Store 1
next:   Next 1 end; Store 2
        Load 2; PushBool true; Set 4
        Back next
end:    Done
