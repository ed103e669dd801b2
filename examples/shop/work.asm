# do: the job and its machine are said, and each clock in the shop goes on by the job's length.
locals 5
query 1 0 where all                         # the clocks in the shop
frame next Old:3 Ref:3 Ref:2 Seq:1 Any
frame end Old:3 Any Any Any Any
loop next-end
        Load 0; Alive end; Store 1
        Load 1; One 11 end; Store 2
        Load 1; Load 2; Say 2
        Find 0; Store 3
next:   Next 3 end; Store 4
        Load 4
        Load 4; Get 4; Load 1; Get 9; Add
        Set 4
        Back next
end:    Done
