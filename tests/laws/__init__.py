"""The laws of docs/model.md, for a reader who looks back through the rows of a book: tests/lawful.py judges
by them.

Written from docs/model.md, docs/formats.md, docs/policy.md, docs/inclusion.md and the standards alone,
never from the code or from tests/gateway_model.py. Each module has one concern, and each law is one
function.
"""
