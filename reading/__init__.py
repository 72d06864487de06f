"""A second implementation of `savi_switch`, to compare the program with: replays and live sessions, the check of a journal,
splits, loads, what is learned of routers, and audits of journals. It was written from the rules that the documents of this
repository state, and from none of the program's code. It imports Python's standard library alone, and nothing of tools/.

conf_runs.py, core_runs.py, line_runs.py and failing_calls.py say what stored runs of crates must leave, and making.py and
making_ipv4.py make frames for checks. worked/ has what was worked out by hand. Tools find this folder beside their own."""
