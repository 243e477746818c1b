"""What the tools, the gallery and the gate share.

`programs` finds and asks the built program; `endings` reads words, and ends with a status and a line; `explicit` reads
and writes model files; `formulas` reads and prints formulas; `model` has models of families and what is asked of them,
`exact` their values in fractions, and `drawn` those that are drawn at random; `certificates` and `strategies` are what
the program writes and what others write; `rewards`, `expected`, `reward_formulas` and `reward_certificates` are the
same of expected rewards; `evidence` is what a dossier holds; `dialects` are the formulas of other tools; and `testing`
is for tests. `tools/reaudit` uses none of it, on purpose.
"""
