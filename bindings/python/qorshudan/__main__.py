"""`python3 -m qorshudan` is the command."""

from qorshudan._command import main

main()
