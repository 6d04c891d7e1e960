"""The desk of an auction's office: bidders hand in forms over HTTPS, and each gets a receipt.

What decides and keeps is `wdp-desk`, a program of its own that is proved. What is here is around it:

- `commands/desk.py` has the commands; `making`, `serving`, `opening` and `checking` do them
- `service` is the desk: one call of a bidder at a time; `web` and `pages` are HTTP, with
  `page.html.jinja`, `office.html.jinja`, `desk.js` and `desk.css`
- `filter` is `wdp-desk` as a child, `calls` what it is told and answers, `journal` what it keeps
- `readers` and `reading` read forms in children with limits; `sealing` seals them
- `accounts` is what is known of each bidder's calls, `outcomes` what a call comes to
- `receipts` are signed; `keys` are those of sessions; `clock` and `room` watch time and disk
- `folder` says what is in the folder of a desk

aiohttp and cryptography are needed by these modules alone, so that nothing else imports them.
"""
