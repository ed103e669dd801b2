# do: a story is written.
text "write"
        PushText 0; Load 0; Say 2
        Done
