"""The parts of `./compaan`, the script at the top of the repository. It stands outside the proof.

`start` begins, `words` takes a call's words apart, `bundle` reads the files that the program gets as one, `kept` says which program
answers and `program` runs it, and `main` joins them: an answer waits for these alone, and for what they stand on. `unproved` and
`proved` make the program, `explain` and what it imports say where a complaint points. Nothing here is for use by itself.
"""
