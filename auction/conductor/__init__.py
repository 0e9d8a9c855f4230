"""What `auction close` and the conductor are made of, one subject a file.

    disk        files that survive a crash
    setup       the parts of a set-up that these tools read
    server      requests in the operator's name
    journal     the server's journal, read on as it grows
    chain       the seeds of tie-breaking numbers
    commitment  what is published before round 1
    closing     one round's closing: fixed on disk, sent, and its pages stored

    settings    the conductor's settings and folders
    clock       the time of day, and the time that has passed
    timetable   a file of days and windows becomes the windows of the rounds
    increments  increments by round and by excess demand
    plan        what the operator and the timetable want, in one file
    gate        when nginx takes sheets
    public       what everyone sees
    report      what the operator sees
    room        the space that the journal still has
    watch       clocks that were set, and servers that nobody saw
    context      what the conductor and the commands share
    conductor   what is done when
    commands    what the operator says
"""
