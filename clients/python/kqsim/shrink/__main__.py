"""python -m kqsim.shrink"""
from .command import run

run()
