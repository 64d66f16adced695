"""lspcheck-fuzz: random sessions, and the fault that explains a drift. `cases` says what a session
is, `editing` makes one, `live` plays many in one server, `shrinking` cuts down, and `stores` has
the wrong stores."""
