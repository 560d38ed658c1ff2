"""The comparison with pMARS. At the top: `python3 -m pmars.compare PMARS`.

compare          plays fights and assembles texts by both programs
games            the commands of both for a game
known            what is known to differ
random_warriors  random load files and texts that mean the same to both
"""
