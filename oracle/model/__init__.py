"""The model of literals, written from the text of docs/GRAMMAR.md. It shares no code with the programs."""
