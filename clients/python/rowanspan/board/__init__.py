"""The command `rowan board`: a page for any browser that shows the views of a server as they change.

`command` reads the command line, `poller` asks the server, `state` keeps what it answered, `handler` serves the page
and its events, `guard` refuses what another page asks, `forms` reads the forms, `showing` writes what the page shows.
"""
