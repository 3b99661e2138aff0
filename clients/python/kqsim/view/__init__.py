"""kqview: a picture of a trace, as one page of HTML. See docs/VIEW.md."""
