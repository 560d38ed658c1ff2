"""What the modules of the gate are made of.

play             starts the program in a folder, and says how the run ended
inputs           the files and the words that runs share (inputs.toml)
cert_inputs      what CERT.inputs has to say
tally            counts what was tried
running          runs commands, modules and trials
lanes            begins rounds of edits
ranking_model    a model of searches, for `ranking_trials`
"""
