"""What the bids lacked that an award doesn't have: the lowest amount at which each would have tied
or won, and an audit that shows it.
"""
