"""What the scripts of tools/ and bench/ share. tools/README.md says what each module is for."""
