"""What the program should answer, computed a second time.

The model is written from docs/API.md, from the formats' descriptions and from RFC 6350 (cards), RFC
4180 (rows), RFC 6578 (reports) and RFC 9112 (requests). It shares nothing with the program, and
prefers what is plainly right to what is fast.

- `cards`: texts of cards, read and written
- `rows`: CSV, read and written
- `books`: an office of books, and the devices that copy them
- `http`: a connection, from octets to octets
"""
