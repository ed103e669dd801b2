# do: a photo is cropped, and the rush is over.
text "crop"
locals 3
query 1 0 where all
frame next Old:4 Seq:1 Any
frame end Old:4 Any Any
loop next-end
        PushText 0; Load 0; Say 2
        Find 0; Store 1
next:   Next 1 end; Store 2
        Load 2; PushBool false; Set 4
        Back next
end:    Done
