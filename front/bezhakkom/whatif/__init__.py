"""What if: questions that are asked again in other pasts.

A *past* is the log with something else in it: an event with another byte, an event that is taken out or moved, or another log
altogether. Image and constants stay. A *question* has an answer at a position: a register, a word, what a line sent, or the first
position at which a condition holds. Each answer is that of the machine run from reset in that past, since the program gives no other.

    causes     the events that decide an answer
    futures    what comes of other values of an event, of its absence, or of other steps
    shrink     the smallest log in which a condition still comes true
    compare    what differs between two pasts
    when       the first position at which a word has a value
    fuzz       other bytes after a position, until a condition comes true
    why        the steps of this past that something comes from

Nothing is estimated: what is said of an event was seen. Of code only `why` knows something, what instructions make their results of and which
branches decide. Every one of them leaves log, image and position as they were.
"""
