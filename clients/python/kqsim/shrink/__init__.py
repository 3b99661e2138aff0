"""kqshrink: a small trace with the same fault. See man/kqshrink.1."""
