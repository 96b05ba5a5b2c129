# A cabinet with a door, a heater and a lamp: the old controller against the new one.
fact shut, warm                 # what the cabinet says
fact heat, lamp                 # what a controller says

node show = ask warm then tell lamp

# The old one waits until the door is shut, and does all the rest after that.
start old at nothing run ask shut then both (tell heat) and show

# The new one shows that it is warm while the door is open, too.
start new at nothing run ask shut then tell heat, show
