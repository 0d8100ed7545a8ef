"""What is tested of the tools. `tools/check` runs all of it."""
