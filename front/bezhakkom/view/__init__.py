"""`bin/wb view`: a page on which the past is dragged.

A server on this machine alone hands out a page and answers its questions. The page shows a run as rows over time. What is moved there
is an edit of the log, and what is shown after it is asked of the program anew.

    command    the words of the line
    server     who may ask, and what is handed out
    fields     what stands in a request
    desk       the pasts: the present one, the former one, those that are kept, and what is undone
    past       a log whose events have names, and what is known of its run
    rows       what each row asks, in few batches
    jumps      the next or the former place of something
    sweep      an event in many places, or with many values
    lines      lines of source, by address
    page/      the page
"""
