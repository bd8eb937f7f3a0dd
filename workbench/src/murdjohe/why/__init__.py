"""Why an element takes what it takes in a millisecond, and what led to it.

Knows by the published rules since when an input is up, down or failed, what lines said, and which event came before what. Offers
`choices.why_of` and its like, and `choice_text`, which `why` prints; a test compares what is counted here with `inspect`.
"""
