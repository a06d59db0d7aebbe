"""What the generators of the suites and the benches share: numbers, instructions, modules, rows, wabt, and copies for benches.

It is written from WebAssembly Core 1.0 (W3C Recommendation of December 2019, whose sections are named) and the threads proposal, and
knows nothing of the project's code.
"""
