"""A letter for each bidder: the form that counted, what it won and pays, and what its lost bids
lacked; or before the award a receipt, of the form alone.
"""
