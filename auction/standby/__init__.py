"""What `auction standby`, `auction fence`, and `auction take-over` are made of, one subject a file.

    mark      fence.json: this folder serves nobody
    judge     whether a copy may take over: one pure function of plain data
    facts     what that function is given, from the files of a folder
    listing   which files a copy has
    frames    what the two machines say to each other
    sending   the machine that serves: it sends what is new
    keeping   the standby: it stores what comes, each pass whole or not at all
    fencing   the machine that served: it serves nobody any more
"""
