"""What the tools share: their arguments, tables, what is wrong with a plan in words, what a journal tells, and what checks
draw at random. What the rules come to is worked out by the second implementation, reading/ at the top of the sources."""
