"""Breaks a cluster of real processes while clients use it, and judges the run only by its logs.

    python3 -m nemesis --seed 7 --seconds 180 --library FOLDER --keep LOGS
    python3 -m nemesis.judge LOGS
    python3 -m nemesis.power_loop --puts 10000 --library FOLDER

`schedule` has the episodes and chooses among them by the seed; `deeds`, `damage`, `links` and `power` have the deeds.
`nodes` has the processes, `clients` the clients. `history` and `judge` import none of these: they know a run by its
logs. `power` can be used by itself, for the disk of any program.
"""
