"""`python3 -m fashkiin`."""

from fashkiin.cli import main

main()
