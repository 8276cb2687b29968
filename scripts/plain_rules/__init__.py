"""The rules of a group as a plain slow program over lists, written from the definitions and not
from the engine.

Each function stands for the definition of its name, so that both can be read side by side. Tokens
are left out.
"""
