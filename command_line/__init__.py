"""The words of the command line: all commands, their help, and why words or an input are refused.

`./zorvleid` calls this package for words that the program does not take, and after a refusal. Which
words are a command line of the program, the program decides.
"""
