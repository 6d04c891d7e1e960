"""The work of an auction from its input to winners, prices and a page: its steps, and what each
leaves.
"""
