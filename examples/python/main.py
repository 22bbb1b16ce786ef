"""Schedules a network, and asks for the slack of one of its rules."""

import mileparcel

with open("examples/own.csv", "rb") as file:
    source = mileparcel.read(file.read())
with mileparcel.Proved() as proved:
    print(proved.schedule(source.data))
    print(proved.questions(source.data, [(9, mileparcel.Rule("setup", 1), 1, -1)]))
