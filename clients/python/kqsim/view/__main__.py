"""python -m kqsim.view"""
from .command import run

run()
