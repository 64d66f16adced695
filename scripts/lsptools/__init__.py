"""The scripts of lspcheck, in parts, of which each may import only what is below it; tests/scripts
shows it."""
