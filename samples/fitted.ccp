# A cabinet with a probe that is fitted for good: no controller need ask for it.
fact probe, ready, warm, lamp

rule nothing gives probe        # the probe always stands
rule probe gives ready

# The long one asks for the probe and posts it again, the short one does not.
start long at nothing run ask {probe, ready, warm} then tell {probe, lamp}
start short at probe run ask warm then tell lamp
