locals 3
query 1 0 interval where within 0 0       # notes on the board
frame next Old:2 Seq:1 Any
frame end Old:2 Any Any
loop next-end
        PushInt 0; PushInt 5; MakeInterval; Find 0; Store 1
next:   Next 1 end; Store 2
        Load 2; Load 2; Get 4; PushInt 10; Add; Set 4
        Load 2; Load 2; Get 4; Say 2
        Back next
end:    Done
