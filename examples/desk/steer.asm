# do: in a rush the desk posts a lead, a focus on photos; when the rush is over it withdraws it.
text "photo"
locals 3
frame calm Old:1 Ref:1 Any
frame end Old:1 Any Any
        Load 0; Alive end; Store 1
        Load 1; Get 4; Unless calm
        New 2; Store 2
        Load 2; PushText 0; Set 1
        Load 2; PushInt 30; Set 2
        Load 1; Load 2; Link 5
        Jump end
calm:   Load 1; One 5 end; Delete
end:    Done
